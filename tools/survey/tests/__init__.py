"""Tests of the survey. `tools/check survey_cases` runs them; with --real those that document crates of Debian's registry and call rustc."""
