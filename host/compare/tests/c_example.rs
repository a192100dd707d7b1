//! The C example is compiled without a warning, run, and held to its printed output; the header goes through C++ too.
//!
//! `TAPECARD_CC` names the C compiler (`gcc`) and `TAPECARD_RUN` the words before a program (none): `scripts/host-env.sh` sets them
//! where the archive is for another processor.

use std::env;
use std::fs;
use std::path::{Path, PathBuf};
use std::process::{Command, Output};

use compare::say;

fn project() -> PathBuf {
    Path::new(env!("CARGO_MANIFEST_DIR")).join("../..")
}

fn archive() -> PathBuf {
    let directory = match env::var_os("TAPECARD_ARCHIVE_DIR") {
        Some(directory) => PathBuf::from(directory),
        None => project().join("target/staticlib"),
    };
    directory.join("libtapecard.a")
}

fn built(name: &str) -> PathBuf {
    Path::new(env!("CARGO_TARGET_TMPDIR")).join(name)
}

fn compiler() -> Command {
    Command::new(env::var("TAPECARD_CC").unwrap_or_else(|_| "gcc".to_string()))
}

/// The program, behind the emulator's words if there are any.
fn program(path: &Path) -> Command {
    let words = env::var("TAPECARD_RUN").unwrap_or_default();
    let mut words = words.split_whitespace();
    match words.next() {
        None => Command::new(path),
        Some(first) => {
            let mut command = Command::new(first);
            command.args(words).arg(path);
            command
        }
    }
}

fn finished(command: &mut Command) -> Output {
    let output = command
        .output()
        .unwrap_or_else(|error| panic!("{command:?}: {error}"));
    assert!(
        output.status.success(),
        "{command:?}\n{}",
        String::from_utf8_lossy(&output.stderr)
    );
    output
}

/// Compiles a C program without a warning and links the archive.
fn compile(source: &Path, name: &str) -> PathBuf {
    let card = built(name);
    let strict = ["-std=c99", "-Wall", "-Wextra", "-Werror", "-pedantic"];
    finished(
        compiler()
            .args(strict)
            .arg("-O2")
            .arg("-I")
            .arg(project().join("include"))
            .arg(source)
            .arg(archive())
            .arg("-o")
            .arg(&card),
    );
    card
}

#[test]
fn the_c_example_prints_what_it_should() {
    let example = project().join("examples/c");
    let card = compile(&example.join("card.c"), "card");
    let printed = finished(&mut program(&card)).stdout;
    let expected = fs::read(example.join("expected.txt")).expect("examples/c/expected.txt");
    assert_eq!(
        String::from_utf8_lossy(&printed),
        String::from_utf8_lossy(&expected)
    );
}

/// Each call of the header once, so that all of them are in the archive.
const EVERY_CALL: &str = r#"#include "tapecard.h"
int main(void)
{
    uint8_t packet_record[TAPECARD_PACKET_RECORD_LENGTH], packet_answer[TAPECARD_PACKET_ANSWER_LENGTH];
    uint8_t record[TAPECARD_PULSE_RECORD_LENGTH], answer[TAPECARD_PULSE_ANSWER_LENGTH];
    uint8_t cartridge[TAPECARD_CARTRIDGE_LENGTH] = {0, 1, 1, 0, 0, 0, 0, 0};
    uint8_t packet[TAPECARD_PACKET_LENGTH] = {0}, image[1] = {0}, data[1] = {0};
    uint8_t floppy_record[TAPECARD_FLOPPY_RECORD_LENGTH] = {0}, index[TAPECARD_INDEX_ENTRY_LENGTH] = {0};
    const uint16_t counts[2] = {2, 2};
    uint8_t levels[2] = {9, 9};
    int refused = 0;

    tapecard_fresh(packet_record);
    tapecard_change(packet_record);
    tapecard_packet(packet_record, image, sizeof image, packet, sizeof packet, data, sizeof data, packet_answer);
    refused += packet_answer[TAPECARD_ANSWER_NUMBER_AT] != TAPECARD_REFUSED_IMAGE;
    tapecard_index_make(image, sizeof image, index, sizeof index, packet_answer);
    refused += packet_answer[TAPECARD_ANSWER_NUMBER_AT] != TAPECARD_REFUSED_IMAGE;
    tapecard_index_packet(packet_record, image, sizeof image, index, sizeof index, packet, sizeof packet, data, sizeof data,
                          packet_answer);
    refused += packet_answer[TAPECARD_ANSWER_NUMBER_AT] != TAPECARD_REFUSED_IMAGE;
    tapecard_export(image, sizeof image, data, sizeof data, packet_answer);
    refused += packet_answer[TAPECARD_ANSWER_NUMBER_AT] != TAPECARD_REFUSED_IMAGE;
    tapecard_import(packet_record, image, sizeof image, data, sizeof data, packet_answer);
    refused += packet_answer[TAPECARD_ANSWER_NUMBER_AT] != TAPECARD_REFUSED_IMAGE;
    tapecard_floppy_fresh(floppy_record, image, sizeof image, packet_answer);
    refused += packet_answer[TAPECARD_ANSWER_NUMBER_AT] != TAPECARD_REFUSED_IMAGE;
    tapecard_floppy_change(floppy_record, image, sizeof image, packet_answer);
    refused += packet_answer[TAPECARD_ANSWER_NUMBER_AT] != TAPECARD_REFUSED_IMAGE;
    tapecard_floppy_packet(floppy_record, image, sizeof image, packet, sizeof packet, data, sizeof data, packet_answer);
    refused += packet_answer[TAPECARD_ANSWER_NUMBER_AT] != TAPECARD_REFUSED_IMAGE;
    tapecard_pulse_power_on(record, 1, 2);
    tapecard_pulse_train(record, 6, answer);
    refused += answer[TAPECARD_ANSWER_NUMBER_AT];
    tapecard_pulse_trains(record, counts, 2, levels, sizeof levels, answer);
    refused += answer[TAPECARD_ANSWER_NUMBER_AT] + (levels[0] != 1) + (levels[1] != 1);
    tapecard_pulse_tick(record, answer);
    refused += answer[TAPECARD_ANSWER_NUMBER_AT];
    tapecard_pulse_insert(record, cartridge, answer);
    refused += answer[TAPECARD_ANSWER_NUMBER_AT];
    tapecard_pulse_wait(record, 9, answer);
    refused += answer[TAPECARD_ANSWER_NUMBER_AT];
    tapecard_pulse_remove(record, answer);
    return refused + answer[TAPECARD_ANSWER_NUMBER_AT];
}
"#;

#[test]
fn every_call_links_from_c() {
    let source = built("every_call.c");
    fs::write(&source, EVERY_CALL).expect("a place for the test's files");
    finished(&mut program(&compile(&source, "every_call")));
}

#[test]
fn the_header_goes_through_cpp() {
    let source = built("header.cpp");
    let text = "#include \"tapecard.h\"\nint main() { uint8_t r[TAPECARD_PACKET_RECORD_LENGTH]; tapecard_fresh(r); return r[0]; }\n";
    fs::write(&source, text).expect("a place for the test's files");
    if Command::new("g++").arg("--version").output().is_err() {
        say("no g++ here: the header was not tried in C++");
        return;
    }
    finished(
        Command::new("g++")
            .args(["-std=c++11", "-Wall", "-Wextra", "-Werror", "-pedantic"])
            .arg("-fsyntax-only")
            .arg("-I")
            .arg(project().join("include"))
            .arg(&source),
    );
}
