#!/usr/bin/env python3
"""Has two builds of the program judge documents that are made by chance from known ones, and tells where they differ.

    bench/fuzz.py SECONDS [--seeds FOLDER] [--program FILE] [--second FILE] [--reader FILE] [--finds FOLDER] [--seed NUMBER]
                          [--longest BYTES]

The documents are examples and data of the tests, and those of the files `*.json` and `*.jsonl` of the folder, of at most so many
bytes (3000), each changed at a few places: bytes, words and numbers, parts left out, doubled, exchanged, nested or taken from another document. Each is given
to the program (`rt ci` leaves it in crates/checker/out) and to a second build of it (`./build-unproved` makes one), many documents to
a process (`serve.c`). A find is

- a document that ends a build by a signal, or takes it longer than two seconds of processor time;
- two builds that write something else, or end with another status; a status above 1, or something on standard error;
- an answer that is no verdict: neither `accepted` with lines after it, nor one line that begins with `refused`;
- memory that is not freed, or more than 40 bytes for a byte of the document, and 16 KiB; what `test_calls json` takes to read
  the same bytes as JSON is allowed too, and 16 KiB beside it;
- more than ten times the time that `test_calls json` takes to read the same bytes as JSON, and 200 microseconds, in each of
  nine runs of the program.

Each find is made smaller for as long as it stays one, and written to the folder of finds (fuzz-finds beside the temporary
files); kinds of finds are counted. Each minute, and in the end, a line tells how many documents were judged. The status is 1
where there is a find.
"""
import argparse
import array
import collections
import json
import os
import random
import re
import struct
import subprocess
import sys
import tempfile
import time
import zlib
from pathlib import Path

TOP = Path(__file__).resolve().parent.parent
BUILT = TOP / "crates/checker/out"
MOST_SEEDS = 8000
MOST_SHARED = 60
BATCH = 2000
TOKEN = re.compile(rb'"(?:[^"\\]|\\.)*"|-?[0-9][0-9.eE+-]*|true|false|null|[\[\]{},:]|[ \t\n\r]+|.', re.S)
NUMBERS = [b"0", b"1", b"2", b"3", b"4", b"7", b"8", b"15", b"16", b"31", b"32", b"63", b"64", b"65", b"127", b"128", b"255", b"256",
           b"1000", b"16384", b"16385", b"65535", b"65536", b"2147483647", b"2147483648", b"4294967294", b"4294967295",
           b"4294967296", b"9223372036854775807", b"18446744073709551615", b"18446744073709551616", b"-1", b"-2147483648",
           b"-9223372036854775808", b"0.5", b"1e9", b"1E-7", b"-0", b"-0.0", b"1e400", b"3.5"]
ODD = [b"null", b"true", b"false", b"[]", b"{}", b'""', b'"\\u0000"', b'"\\ud800"', b"[[]]", b"[null]"]
RECORD = struct.Struct("<7Q")
MOST_MEMORY, MEMORY_FREE = 40, 1 << 14
MOST_TIMES, TIME_FREE = 10, 200_000
# nanoseconds that the JSON reader takes for a byte at the least
READ_AT_LEAST = 3
VERDICT = re.compile(rb"accepted( strict)?\n(?:[a-z]+ [^\n]*\n)*|refused [a-z]+(?: [0-9]+)?\n")


class Server:
    """A build of the program that judges a list of documents in one process."""

    def __init__(self, library, words):
        env = {"LD_PRELOAD": library, "SERVE_SECONDS": "2"}
        self.run = subprocess.Popen(words, stdin=subprocess.PIPE, stdout=subprocess.PIPE, stderr=subprocess.DEVNULL, env=env)

    def judge(self, documents):
        """The bytes of all records."""
        parts = [struct.pack("<Q", len(it)) + it for it in documents]
        whole = b"".join(parts)
        self.run.stdin.write(struct.pack("<2Q", len(documents), len(whole)) + whole)
        self.run.stdin.flush()
        length, = struct.unpack("<Q", self.run.stdout.read(8))
        return self.run.stdout.read(length)

    def answers(self, documents):
        """For each document its status, what was written to both descriptors, nanoseconds, memory, allocations, what is left."""
        whole, at, found = self.judge(documents), 0, []
        for _ in documents:
            status, out, err, *rest = RECORD.unpack_from(whole, at)
            at += RECORD.size
            found.append((status, whole[at:at + out], whole[at + out:at + out + err], *rest))
            at += out + err
        return found


def mixed(key, at):
    """A number for what stands at a place of a list, where the list has this one."""
    return ((key ^ 0x9E3779B9) * 0x85EBCA6B + min(at, 8) * 0xC2B2AE35) & 0xFFFFFFFF


class Seed:
    """A document as words, with the places of its values: where each begins, where it ends, and what its surroundings are."""

    def __init__(self, text, known):
        self.text, self.words = text, [known.setdefault(it, it) for it in TOKEN.findall(text)]
        self.begins, self.ends, self.kinds = array.array("I"), array.array("I"), array.array("I")
        opened, key, index = [], 0, 0
        for at, word in enumerate(self.words):
            if word == b"[" or word == b"{":
                opened.append((at, key, index))
                head = self.words[at + 1:at + 2]
                key = zlib.crc32(head[0]) if head and head[0][:1] == b'"' and head[0][1:2].isupper() else mixed(key, index)
                index = 0
            elif word == b"]" or word == b"}":
                if opened:
                    begin, key, index = opened.pop()
                    self.note(begin, at + 1, mixed(key, index))
            elif word == b",":
                index += 1
            elif word != b":" and not word.isspace():
                self.note(at, at + 1, mixed(key, index))

    def note(self, begin, end, kind):
        self.begins.append(begin)
        self.ends.append(end)
        self.kinds.append(kind)

    def value(self, chance):
        """Where one of its values begins and ends, and the number of its surroundings."""
        at = chance.randrange(len(self.begins))
        return self.begins[at], self.ends[at], self.kinds[at]

    def part(self, chance):
        """The words of one of its values."""
        begin, end, _ = self.value(chance)
        return self.words[begin:end]


def texts_of(value):
    """All texts of documents in a list of cases, or the document that the value is."""
    if isinstance(value, list) and value and isinstance(value[0], dict):
        for it in value:
            yield from texts_of(it)
    elif isinstance(value, dict):
        text = value.get("document", value.get("input"))
        if isinstance(text, str):
            yield text


def read_seeds(folders, longest):
    found = {}
    for path in sorted(it for folder in folders for kind in ("*.json", "*.jsonl") for it in Path(folder).glob(kind)):
        raw = path.read_text()
        lines = raw.split("\n") if path.suffix == ".jsonl" else [raw]
        for line in lines:
            if not line.strip():
                continue
            value = json.loads(line)
            is_document = isinstance(value, list) and value[:1] == [1]
            for text in [line] if is_document else texts_of(value):
                if 16 <= len(text) <= longest:
                    found[text.encode()] = None
    return list(found)


class Maker:
    """Makes documents by chance."""

    def __init__(self, texts, chance, longest):
        self.chance, self.longest, self.kept, self.known = chance, longest, [], {}
        few = chance.sample(texts, min(len(texts), MOST_SEEDS))
        seeds = self.seeds = [it for it in (Seed(text, self.known) for text in few) if it.begins]
        self.parts = collections.defaultdict(list)
        for seed in seeds:
            self.share(seed)
        counts = collections.Counter(word for seed in seeds for word in set(seed.words) if word[:1] == b'"')
        self.words = [word for word, _ in counts.most_common(700)]

    def share(self, seed):
        """Has some values of a document taken where others of such surroundings stand."""
        for _ in range(min(len(seed.begins), MOST_SHARED)):
            begin, end, kind = seed.value(self.chance)
            if end - begin > 600:
                continue
            parts = self.parts[kind]
            if len(parts) < 400:
                parts.append(seed.words[begin:end])
            else:
                parts[self.chance.randrange(400)] = seed.words[begin:end]

    def keep(self, text):
        """Takes a document that came to something new as one to change."""
        seed = Seed(text, self.known)
        if not seed.begins:
            return
        self.share(seed)
        if len(self.kept) < MOST_SEEDS:
            self.kept.append(seed)
        else:
            self.kept[self.chance.randrange(len(self.kept))] = seed

    def seed(self):
        if self.kept and self.chance.random() < 0.4:
            return self.chance.choice(self.kept)
        return self.chance.choice(self.seeds)

    def instead(self, word):
        """A word in place of another."""
        chance = self.chance
        if word[:1].isdigit() or word[:1] == b"-":
            if chance.random() < 0.7 and word.isdigit() and len(word) < 18:
                return b"%d" % max(0, int(word) + chance.choice((-2, -1, -1, 1, 1, 2, 4)))
            return chance.choice(NUMBERS)
        if word[:1] == b'"' and chance.random() < 0.8:
            return chance.choice(self.words)
        return chance.choice(ODD if chance.random() < 0.7 else NUMBERS)

    def changed(self, words, value, other):
        """What stands in place of a value's words."""
        chance, (begin, end, kind) = self.chance, value
        part, way = words[begin:end], self.chance.random()
        if way < 0.62 and self.parts[kind]:
            return chance.choice(self.parts[kind])
        if end - begin == 1 and way < 0.86:
            return [self.instead(part[0])]
        if way < 0.80:
            return [*part, b",", *part]
        if way < 0.86:
            return [*part, b",", *(chance.choice(self.parts[kind]) if self.parts[kind] else part)]
        if way < 0.90:
            return other.part(chance)
        if way < 0.93:
            return [b"[", *part, b"]"]
        if way < 0.96:
            times = chance.choice((2, 3, 8, 60, 200))
            return ([*part, b","] * times)[:-1] if len(part) * times < 4000 else part
        return [chance.choice(ODD)]

    def left_out(self, words, value):
        """The words without an item, and without the comma beside it."""
        begin, end, _ = value
        if end < len(words) and words[end] == b",":
            return words[:begin] + words[end + 1:]
        if begin and words[begin - 1] == b",":
            return words[:begin - 1] + words[end:]
        return words[:begin] + words[end:]

    def exchanged(self, words, seed):
        """The words with two values that stand apart exchanged."""
        one, two = sorted((seed.value(self.chance), seed.value(self.chance)))
        if one[1] > two[0]:
            return words
        return [*words[:one[0]], *words[two[0]:two[1]], *words[one[1]:two[0]], *words[one[0]:one[1]], *words[two[1]:]]

    def by_values(self):
        chance, seed = self.chance, self.seed()
        words, count = seed.words, 1
        if chance.random() < 0.08:
            words = self.exchanged(words, seed)
            return b"".join(words)
        while count < 6 and chance.random() < 0.45:
            count += 1
        picked, border = [], len(words)
        for value in sorted((seed.value(chance) for _ in range(count)), reverse=True):
            if value[1] <= border:
                picked.append(value)
                border = value[0]
        other = seed if chance.random() < 0.6 else self.seed()
        for value in picked:
            if chance.random() < 0.08:
                words = self.left_out(words, value)
            else:
                words = [*words[:value[0]], *self.changed(words, value, other), *words[value[1]:]]
        return b"".join(words)

    def by_bytes(self):
        chance, text = self.chance, bytearray(self.seed().text)
        for _ in range(chance.choice((1, 1, 1, 2, 5))):
            at, way = chance.randrange(len(text) + 1), chance.randrange(6)
            if way == 0:
                text[at:at + 1] = bytes([chance.randrange(256)])
            elif way == 1:
                text[at:at] = bytes([chance.choice(b'[]{},:"\\0123456789-+.eE \n\t\xff\x80\x00ntf')])
            elif way == 2:
                del text[at:at + chance.choice((1, 1, 2, 8, 64))]
            elif way == 3:
                text[at:at] = text[at:at + chance.choice((1, 4, 32))]
            elif way == 4:
                del text[at:]
            elif at < len(text):
                text[at] ^= 1 << chance.randrange(8)
        return bytes(text)

    def document(self):
        text = self.by_bytes() if self.chance.random() < 0.12 else self.by_values()
        return text[:self.longest * 8]


class Judge:
    """Both builds and the JSON reader, and what was found."""

    def __init__(self, given, library):
        self.servers = [Server(library, [given.program]), Server(library, [given.second])]
        self.reader = Server(library, [given.reader, "json"]) if given.reader else None
        self.counts, self.finds = collections.Counter(), Path(given.finds)
        self.known = set()

    def broken(self, text, answers):
        """Why two answers to a document are a find, or None."""
        (status, out, err, *_), other = answers[0], answers[1]
        for at, it in enumerate(answers):
            if it[0] >= 256:
                return f"build {at} ends by signal {it[0] - 256}"
        if (status, out, err) != other[:3]:
            return "builds differ"
        if status > 1 or err or not VERDICT.fullmatch(out) or (status == 0) != out.startswith(b"accepted"):
            return "no verdict"
        for at, it in enumerate(answers):
            if it[6]:
                return f"build {at} leaves memory"
            if it[4] > MOST_MEMORY * len(text) + MEMORY_FREE and it[4] > self.alone(text) + MEMORY_FREE:
                return f"build {at} takes much memory"
        return None

    def alone(self, text):
        """The most memory that reading it as JSON takes."""
        return self.reader.answers([text])[0][4] if self.reader else 0

    def slow(self, texts, spent):
        """Which of these documents the program takes longer for in each of nine runs than the JSON reader."""
        left = [(text, it) for text, it in zip(texts, spent) if it > TIME_FREE + MOST_TIMES * READ_AT_LEAST * len(text)]
        for _ in range(9 if self.reader else 0):
            texts = [text for text, _ in left]
            if not texts:
                break
            alone = [it[3] for it in self.reader.answers(texts)]
            again = [it[3] for it in self.servers[0].answers(texts)]
            left = [(text, min(it, once)) for (text, it), reader, once in zip(left, alone, again)
                    if min(it, once) > TIME_FREE + MOST_TIMES * reader]
        return {text for text, _ in left} if self.reader else set()

    def why(self, text):
        answers = [it.answers([text])[0] for it in self.servers]
        why = self.broken(text, answers)
        return why or ("the program takes long" if self.slow([text], [answers[0][3]]) else None)

    def smaller(self, text, why):
        """The document with as much left out as can be, where it stays such a find."""
        until = time.time() + 60
        for split in (TOKEN.findall, lambda it: [bytes([b]) for b in it]):
            words, step = split(text), None
            step = max(1, len(words) // 2)
            while step and time.time() < until:
                at = 0
                while at < len(words) and time.time() < until:
                    less = words[:at] + words[at + step:]
                    if self.why(b"".join(less)) == why:
                        words = less
                    else:
                        at += step
                step //= 2
            text = b"".join(words)
        return text

    def find(self, text, why):
        self.counts[why] += 1
        if self.counts[why] > 20:
            return
        self.finds.mkdir(parents=True, exist_ok=True)
        name = f"{why.replace(' ', '-')}-{self.counts[why]}"
        (self.finds / f"{name}-whole.json").write_bytes(text)
        small = self.smaller(text, why)
        (self.finds / f"{name}.json").write_bytes(small)
        print(f"find: {why}: {small[:300]!r} ({len(text)} bytes, {len(small)} left)", flush=True)

    def batch(self, texts):
        """Judges documents, and answers which came to something new."""
        answers = list(zip(*(it.answers(texts) for it in self.servers)))
        new, verdicts = [], collections.Counter()
        slow = self.slow(texts, [pair[0][3] for pair in answers])
        for text, pair in zip(texts, answers):
            why = self.broken(text, pair) or ("the program takes long" if text in slow else None)
            if why:
                self.find(text, why)
            out = pair[0][1]
            line = out[:out.find(b"\n")]
            verdicts[b" ".join(line.split()[:2]).decode(errors="replace")] += 1
            kind = (b"".join(line.split()[:2]), min(out.count(b"\n"), 8), pair[0][5].bit_length(), len(text).bit_length())
            if kind not in self.known and len(self.known) < 1 << 20:
                self.known.add(kind)
                new.append(text)
        return new, verdicts


def arguments():
    words = argparse.ArgumentParser(description=__doc__.split("\n")[0])
    words.add_argument("seconds", type=float)
    words.add_argument("--seeds", action="append", default=[])
    words.add_argument("--program", default=str(BUILT / "checker"))
    words.add_argument("--second", default=str(BUILT / "checker-unproved"))
    words.add_argument("--reader", default=str(TOP / "crates/test_calls/out/test_calls"))
    words.add_argument("--finds", default=str(Path(tempfile.gettempdir()) / "fuzz-finds"))
    words.add_argument("--seed", type=int, default=0)
    words.add_argument("--longest", type=int, default=3000)
    given = words.parse_args()
    for path in (given.program, given.second):
        if not os.access(path, os.X_OK):
            sys.exit(f"fuzz: {path} is not built yet")
    if not os.access(given.reader, os.X_OK):
        print(f"fuzz: {given.reader} is not built, so times are not compared", flush=True)
        given.reader = None
    return given


def main():
    given = arguments()
    with tempfile.TemporaryDirectory() as room:
        library = f"{room}/libserve.so"
        words = [os.environ.get("CC", "cc"), "-O2", "-fPIC", "-shared", "-o", library, str(TOP / "bench/serve.c"), "-ldl"]
        subprocess.run(words, check=True)
        seeds = read_seeds([TOP / "examples", TOP / "crates/test_cases/data", *given.seeds], given.longest)
        maker, judge = Maker(seeds, random.Random(given.seed), given.longest), Judge(given, library)
        print(f"{len(seeds)} documents to begin with, {len(maker.seeds)} of them chosen", flush=True)
        begin = said = time.time()
        count, verdicts = 0, collections.Counter()
        while (now := time.time()) - begin < given.seconds:
            texts = [maker.document() for _ in range(BATCH)]
            new, answered = judge.batch(texts)
            for text in new:
                maker.keep(text)
            count += len(texts)
            verdicts += answered
            if now - said >= 60:
                said = now
                print(f"{count} documents in {now - begin:.0f} s, {len(maker.kept)} kept, finds {dict(judge.counts)}", flush=True)
        print(f"{count} documents in {time.time() - begin:.0f} s; finds: {dict(judge.counts) or 'none'}", flush=True)
        print("answers:", ", ".join(f"{name} {number}" for name, number in verdicts.most_common()), flush=True)
    return 1 if judge.counts else 0


if __name__ == "__main__":
    sys.exit(main())
