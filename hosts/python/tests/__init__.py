# SPDX-License-Identifier: Apache-2.0
"""Tests of otel_proved, over the shared library: python3 -m unittest, in the folder above."""
