"""The processor time and the memory of a program's runs, which other work beside it changes less than the time that passes."""
import os
import subprocess
import tempfile
import time

import speed_program

PARSING = r'''//! Parses each line of standard input as JSON, and counts the objects.
#![tactic(auto)]

use serde_json::Value as Json;
use std::alloc::Global;
use std::io::{self, Read};

fn is_object(alloc: Global, line: &[u8]) -> bool {
    match Json::from_slice(alloc, line) {
        Ok(json) => json.is_object(),
        Err(_) => false,
    }
}

fn main(rt: HostRuntime) -> io::Result<()> {
    let alloc = rt.alloc();
    let mut input = Vec::new(alloc);
    rt.reader().read_to_end(&mut input)?;
    let mut count = 0u64;
    for line in input.as_slice().split(|byte| *byte == b'\n') {
        if is_object(alloc, line) {
            count = count.wrapping_add(1);
        }
    }
    println!(rt; "{count}")
}
'''


class Ran:
    """What a run took: seconds of its own, mebibytes at most, what it wrote, and the seconds that passed by the clock."""

    def __init__(self, seconds, mebibytes, output, passed):
        self.seconds, self.mebibytes, self.output, self.passed = seconds, mebibytes, output, passed


def run(words, text=b""):
    """Runs a program once; ends the tool where it does not end well."""
    with tempfile.TemporaryFile() as source, tempfile.TemporaryFile() as sink:
        source.write(text)
        source.seek(0)
        begun = time.monotonic()
        ran = subprocess.Popen([str(word) for word in words], stdin=source, stdout=sink)
        _, status, used = os.wait4(ran.pid, 0)
        passed = time.monotonic() - begun
        ran.returncode = os.waitstatus_to_exitcode(status)
        if ran.returncode != 0:
            raise SystemExit(f"{words[0]} ended with status {ran.returncode}")
        sink.seek(0)
        return Ran(used.ru_utime + used.ru_stime, used.ru_maxrss / 1024, sink.read(), passed)


def least(words, text=b"", turns=3):
    """The run of several that took the least."""
    return min((run(words, text) for _ in range(turns)), key=lambda ran: ran.seconds)


def parser(folder):
    """A built and proved program that reads lines by the kit's serde_json and does nothing else with them; its path."""
    return speed_program.built(folder, PARSING, [], ["serde_json"])
