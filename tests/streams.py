#!/usr/bin/env python3
"""The program's reading and writing, which no proof can speak of: input in parts, input of just 65,536 bytes and of one more, output
over several parts, reads and writes that fail. Arguments: the outside program, then the program with its words. FORMAT.md's section 12 and the
man page say what is expected here."""
import fcntl
import os
import resource
import signal
import struct
import subprocess
import sys
import tempfile
import termios
import time

RECORD = 32
MOST = 65536
PART = 1000
REFUSED = b"E 0 0 1\n"
# What a failed write leaves on standard error, and the status; the same for a failed read.
FAILED = (b"sandegmur: the output could not be written\n", 1)
READ_FAILED = (b"sandegmur: the input could not be read\n", 1)
SECONDS = 60

NEGATIVE, TOLERATED = 2, 2
OTHER, SPITZ = 3, 1


def record(kind, one, two, following, *fields):
    fields = list(fields) + [0] * (6 - len(fields))
    return struct.pack("<4B7i", kind, one, two, 0, following, *fields)


def archive(measures, records):
    """One plant, other Spitz, whose measures share all quarters that there is room for; no quarter has another's amount."""
    first = 2 + measures
    quarters = records - first
    body = [record(1, OTHER, SPITZ, 0, 0, 2, 1000000000)]
    body += [record(3, NEGATIVE, TOLERATED, 0 if n == first - 1 else n + 1, 0, first) for n in range(2, first)]
    body += [record(5, 1, 0, 0 if n == records - 1 else n + 1, 0, 0, 0, 400000 + 37 * n) for n in range(first, first + quarters)]
    return struct.pack("<4s2i20x", b"AARB", records, 1) + b"".join(body)


def check(holds, what):
    if not holds:
        sys.exit(f"streams: {what}")


def ended_well(what, process, out, error, expected):
    check(out == expected, f"{what}: {len(out)} bytes of output, not the {len(expected)} expected ones")
    check(error == b"", f"{what}: on standard error {error[:80]!r}")
    check(process.returncode == 0, f"{what}: status {process.returncode}")


def from_file(program, data, expected, what):
    with tempfile.TemporaryFile() as file:
        file.write(data)
        file.seek(0)
        process = subprocess.run(program, stdin=file, capture_output=True, timeout=SECONDS, check=False)
    ended_well(what, process, process.stdout, process.stderr, expected)


def feed(process, data):
    """Writes part after part, each once the one before it has been read, so that every read is short; whether all were read."""
    pipe = process.stdin.fileno()
    waiting = bytearray(4)
    for at in range(0, len(data), PART):
        os.write(pipe, data[at : at + PART])
        until = time.monotonic() + SECONDS
        fcntl.ioctl(pipe, termios.FIONREAD, waiting)
        while waiting != bytes(4):
            if process.poll() is not None or time.monotonic() > until:
                return False
            time.sleep(0.0001)
            fcntl.ioctl(pipe, termios.FIONREAD, waiting)
    return True


def in_parts(program, data, expected, what):
    """The input by a pipe, part after part, and the output to a file."""
    with tempfile.TemporaryFile() as out, tempfile.TemporaryFile() as error:
        process = subprocess.Popen(program, stdin=subprocess.PIPE, stdout=out, stderr=error)
        try:
            read = feed(process, data)
        except BrokenPipeError:
            read = False
        process.stdin.close()
        process.wait(timeout=SECONDS)
        check(read, f"{what}: the input is not read to its end")
        out.seek(0)
        error.seek(0)
        ended_well(what, process, out.read(), error.read(), expected)


def cut_output(program, data, expected, ignored):
    """The output to a pipe whose reader goes away after some of it; SIGPIPE as it is by default, or ignored."""
    what = "reader gone, SIGPIPE " + ("ignored" if ignored else "by default")
    with tempfile.TemporaryFile() as file, tempfile.TemporaryFile() as error:
        file.write(data)
        file.seek(0)
        # Python ignores SIGPIPE and hands that on unless it restores the signals.
        process = subprocess.Popen(program, stdin=file, stdout=subprocess.PIPE, stderr=error, restore_signals=not ignored)
        got = b""
        while len(got) < MOST + 10 * PART:
            got += os.read(process.stdout.fileno(), PART)
        process.stdout.close()
        process.wait(timeout=SECONDS)
        error.seek(0)
        said = error.read()
    check(expected.startswith(got), f"{what}: other bytes than the output's first {len(got)}")
    told = FAILED if ignored else (b"", -signal.SIGPIPE)
    check((said, process.returncode) == told, f"{what}: {said[:80]!r}, status {process.returncode}")


def limited_output(program, data, expected):
    """The output to a file that may have no more than so many bytes, where the system only tells it: the last write is cut short."""
    most = MOST + 30 * PART + 17
    with tempfile.TemporaryFile() as file, tempfile.TemporaryFile() as out, tempfile.TemporaryFile() as error:
        file.write(data)
        file.seek(0)
        process = subprocess.run(
            program,
            stdin=file,
            stdout=out,
            stderr=error,
            timeout=SECONDS,
            restore_signals=False,
            preexec_fn=lambda: resource.setrlimit(resource.RLIMIT_FSIZE, (most, most)),
            check=False,
        )
        out.seek(0)
        error.seek(0)
        got, said = out.read(), error.read()
    check(got == expected[:most], f"limited file: not the output's first {most} bytes but {len(got)} others")
    check((said, process.returncode) == FAILED, f"limited file: {said[:80]!r}, status {process.returncode}")


def full_output(program, data):
    with tempfile.TemporaryFile() as file, open("/dev/full", "wb") as full:
        file.write(data)
        file.seek(0)
        process = subprocess.run(program, stdin=file, stdout=full, stderr=subprocess.PIPE, timeout=SECONDS, check=False)
    check((process.stderr, process.returncode) == FAILED, f"full device: {process.stderr[:80]!r}, status {process.returncode}")


def failed_read(program, source, expected, what):
    """A read that fails is the end of the input. source: a descriptor, or None for a closed input."""
    closed = (lambda: os.close(0)) if source is None else None
    process = subprocess.run(program, stdin=source, capture_output=True, timeout=SECONDS, preexec_fn=closed, check=False)
    check(process.stdout == expected, f"{what}: {process.stdout[:80]!r}")
    told = (process.stderr, process.returncode)
    check(told == READ_FAILED, f"{what}: {told[0][:80]!r}, status {told[1]}")


def failed_reads(program, archives):
    failed_read(program, None, REFUSED, "closed input")
    directory = os.open("/", os.O_RDONLY)
    failed_read(program, directory, REFUSED, "directory")
    os.close(directory)
    for data, expected in archives:
        # an empty pipe that nobody waits for: a read fails once the archive is read
        reader, writer = os.pipe()
        fcntl.fcntl(writer, fcntl.F_SETPIPE_SZ, 2 * MOST)
        os.set_blocking(reader, False)
        os.write(writer, data)
        failed_read(program, reader, expected, f"read that fails behind an archive of {len(data):,} bytes")
        os.close(reader)
        os.close(writer)


def main():
    outside, program = sys.argv[1], sys.argv[2:]

    def outside_output(data):
        return subprocess.run([outside], input=data, capture_output=True, timeout=SECONDS, check=True).stdout

    # 2,048 records, all of them used, and the last one's amount in the last line of each measure; the output takes several parts
    whole = archive(30, MOST // RECORD)
    lines = outside_output(whole)
    check(len(whole) == MOST and len(lines) > 8 * MOST, "the archive is not of 65,536 bytes, or its output too short to tell")
    small = archive(3, 100)
    small_lines = outside_output(small)

    from_file(program, whole, lines, "65,536 bytes")
    in_parts(program, whole, lines, "65,536 bytes in parts")
    from_file(program, small, small_lines, "3,200 bytes")
    in_parts(program, small, small_lines, "3,200 bytes in parts")
    from_file(program, b"", REFUSED, "no byte")
    for more in (1, RECORD, MOST):
        for data, what in ((whole + bytes(more), "zeros"), (whole + whole[:more], "the archive again")):
            check(outside_output(data) == REFUSED, "the outside program takes more than 65,536 bytes")
            from_file(program, data, REFUSED, f"65,536 bytes and {more} more, {what}")
    in_parts(program, whole + b"\0", REFUSED, "65,536 bytes and one more in parts")

    failed_reads(program, ((small, small_lines), (whole, lines)))
    cut_output(program, whole, lines, ignored=False)
    cut_output(program, whole, lines, ignored=True)
    limited_output(program, whole, lines)
    full_output(program, whole)
    full_output(program, b"")
    print(f"streams: {len(lines)} bytes of output whole, input in parts, one byte too many, reads and writes that fail")


main()
