// SPDX-License-Identifier: Apache-2.0
//! How a pipeline is opened.

use crate::ffi::{Handle, Process};
use crate::{Error, Pipeline};
use std::collections::hash_map::RandomState;
use std::env;
use std::ffi::OsString;
use std::hash::{BuildHasher, Hasher};
use std::process;
use std::time::SystemTime;

/// Variables for this library, and among them those that the host reads itself.
const OURS: &str = "OTEL_";
const OF_EXPORTERS: &str = "OTEL_EXPORTER_";

/// Variables for who builds a host or loads the library.
const OF_BUILDS: [&str; 2] = ["OTEL_C_DIR", "OTEL_C_LIBRARY"];

const RESOURCE: &str = "OTEL_RESOURCE_ATTRIBUTES";

/// What the resource says of the SDK, which OpenTelemetry asks of each that is not its own.
const ABOUT: &str = concat!(
    "telemetry.sdk.name=otel_proved,telemetry.sdk.language=rust,telemetry.sdk.version=",
    env!("CARGO_PKG_VERSION"),
    ","
);

/// Settings of a pipeline, by the names that variables of the environment have, and the seed of its ids.
#[derive(Clone, Debug, Default)]
pub struct Builder {
    settings: Vec<Setting>,
    /// Names of variables that cannot be handed on.
    left_out: Vec<String>,
    seed: Option<u64>,
}

#[derive(Clone, Debug)]
struct Setting {
    name: String,
    value: String,
}

impl Setting {
    /// Whether it can stand in a line `NAME=VALUE`; a carriage return at a line's end counts as a part of the end.
    fn is_a_line(&self) -> bool {
        let is_name = !self.name.is_empty() && !self.name.contains(['=', '\n']);
        is_name && !self.value.contains('\n') && !self.value.ends_with('\r')
    }

    fn line(&self) -> String {
        // Of two attributes the later counts: the user's.
        let about = if self.name == RESOURCE { ABOUT } else { "" };
        format!("{}={about}{}\n", self.name, self.value)
    }
}

impl Builder {
    /// A setting, such as `OTEL_SERVICE_NAME`; it replaces one of the same name.
    pub fn setting(mut self, name: impl Into<String>, value: impl Into<String>) -> Self {
        self.set(Setting { name: name.into(), value: value.into() });
        self
    }

    /// Every variable `OTEL_*` of the environment is a setting, but for those of exporters, `OTEL_EXPORTER_*`, and of
    /// builds, `OTEL_C_DIR` and `OTEL_C_LIBRARY`. A variable that is not UTF-8 or no single line counts as a setting
    /// that was ignored.
    pub fn from_env(self) -> Self {
        self.variables(env::vars_os())
    }

    fn variables(mut self, variables: impl IntoIterator<Item = (OsString, OsString)>) -> Self {
        for (name, value) in variables {
            let name = name.to_string_lossy().into_owned();
            if !name.starts_with(OURS) || name.starts_with(OF_EXPORTERS) || OF_BUILDS.contains(&&*name) {
                continue;
            }
            let setting = value.into_string().map(|value| Setting { name: name.clone(), value });
            match setting.ok().filter(Setting::is_a_line) {
                Some(setting) => self.set(setting),
                None => self.left_out.push(name),
            }
        }
        self
    }

    fn set(&mut self, setting: Setting) {
        self.settings.retain(|it| it.name != setting.name);
        self.settings.push(setting);
    }

    /// The seed, which decides all ids: each process needs one of its own. Without this call it is random.
    pub fn seed(mut self, seed: u64) -> Self {
        self.seed = Some(seed);
        self
    }

    /// Opens the pipeline. A setting that nobody knows or whose value does not read is ignored, and named by
    /// [`Pipeline::ignored_settings`].
    ///
    /// The resource says by `telemetry.sdk.name`, `.version` and `.language` that the SDK is this package, unless
    /// `OTEL_RESOURCE_ATTRIBUTES` says others.
    pub fn open(mut self) -> Result<Pipeline, Error> {
        if let Some(bad) = self.settings.iter().find(|it| !it.is_a_line()) {
            return Err(Error::BadSetting(bad.name.clone()));
        }
        if !self.settings.iter().any(|it| it.name == RESOURCE) {
            self.set(Setting { name: RESOURCE.to_owned(), value: String::new() });
        }
        let lines: String = self.settings.iter().map(Setting::line).collect();
        let process = Process::watched()?;
        let mut handle = Handle::open(&lines, self.seed.unwrap_or_else(random_seed))?;
        let names = String::from_utf8(handle.ignored_settings()?).map_err(|_| Error::NotUtf8)?;
        let ignored = names.lines().map(str::to_owned).chain(self.left_out).collect();
        Ok(Pipeline::new(handle, process, ignored))
    }
}

/// A number from the keys that the system gives for hashing, the clock and the id of the process.
pub(crate) fn random_seed() -> u64 {
    let mut hasher = RandomState::new().build_hasher();
    hasher.write_u32(process::id());
    let since = SystemTime::now().duration_since(SystemTime::UNIX_EPOCH);
    hasher.write_u128(since.map_or(0, |it| it.as_nanos()));
    hasher.finish()
}

#[cfg(test)]
mod tests {
    use super::*;

    fn names_of(builder: &Builder) -> Vec<&str> {
        builder.settings.iter().map(|it| it.name.as_str()).collect()
    }

    fn of_variables(variables: &[(&str, &str)]) -> Builder {
        Builder::default().variables(variables.iter().map(|(name, value)| (name.into(), value.into())))
    }

    #[test]
    fn variables_of_others_are_not_handed_on() {
        let builder = of_variables(&[
            ("OTEL_SERVICE_NAME", "shop"),
            ("OTEL_EXPORTER_OTLP_ENDPOINT", "http://localhost:4318"),
            ("OTEL_C_DIR", "bin"),
            ("HOME", "here"),
        ]);
        assert_eq!(names_of(&builder), ["OTEL_SERVICE_NAME"]);
        assert!(builder.left_out.is_empty());
    }

    #[test]
    fn variables_that_are_no_lines_are_named() {
        let builder = of_variables(&[("OTEL_SERVICE_NAME", "two\nlines"), ("OTEL_BSP_MAX_QUEUE_SIZE", "8")]);
        assert_eq!(names_of(&builder), ["OTEL_BSP_MAX_QUEUE_SIZE"]);
        assert_eq!(builder.left_out, ["OTEL_SERVICE_NAME"]);
    }

    #[test]
    fn a_later_setting_replaces_an_earlier_one() {
        let builder = of_variables(&[("OTEL_SERVICE_NAME", "a")]).setting("OTEL_SERVICE_NAME", "b");
        assert_eq!(builder.settings.len(), 1);
        assert_eq!(builder.settings[0].value, "b");
    }

    #[test]
    fn seeds_differ() {
        assert_ne!(random_seed(), random_seed());
    }
}
