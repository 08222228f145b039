#!/usr/bin/env python3
"""Counts instructions on a processor with the vectors of 32 bytes of today (AVX2), and on the same one without them, as our
compiler's target has it. So it shows how much of a ratio is the width of another program's vectors. It needs qemu-x86_64 (Debian's
qemu-user) and gcc, which builds the plugin that counts; where one of them is missing it says so, and counts nothing.

Usage, at the top of the repository: bench/processors.py OTHER INPUT..   OTHER is a program with the same words; ours is
crates/track_main/out/track_main, or the one that the variable TRACK names. For each input and word it prints our millions of
instructions and the ratio of ours to the other's, with wide vectors and then without, and whether the texts are the same."""
import os
import re
import shutil
import subprocess
import sys
import tempfile

sys.dont_write_bytecode = True
sys.path.insert(0, os.path.join(os.path.dirname(os.path.realpath(__file__)), "../scripts"))
from program import PROVED, tried_program  # noqa: E402

OURS = tried_program(PROVED)
PROCESSORS = ["max", "max,-avx2"]
WORDS = ["cover", "replay", "census"]
PLUGIN = r"""
#include <stddef.h>
#include <stdint.h>
#include <stdio.h>

struct qemu_plugin_tb;
extern void qemu_plugin_register_vcpu_tb_trans_cb(uint64_t id, void (*call)(uint64_t, struct qemu_plugin_tb *));
extern void qemu_plugin_register_vcpu_tb_exec_inline(struct qemu_plugin_tb *block, int add, void *at, uint64_t count);
extern size_t qemu_plugin_tb_n_insns(const struct qemu_plugin_tb *block);
extern void qemu_plugin_register_atexit_cb(uint64_t id, void (*call)(uint64_t, void *), void *data);

int qemu_plugin_version = 1;
static uint64_t count;

static void translate(uint64_t id, struct qemu_plugin_tb *block) {
  qemu_plugin_register_vcpu_tb_exec_inline(block, 0, &count, qemu_plugin_tb_n_insns(block));
}

static void tell(uint64_t id, void *data) { fprintf(stderr, "counted %llu\n", (unsigned long long)count); }

int qemu_plugin_install(uint64_t id, const void *info, int argc, char **argv) {
  qemu_plugin_register_vcpu_tb_trans_cb(id, translate);
  qemu_plugin_register_atexit_cb(id, tell, NULL);
  return 0;
}
"""


def run(plugin, processor, program, word, data):
    """How many instructions a run takes on a processor, and its text."""
    words = ["qemu-x86_64", "-cpu", processor, "-plugin", plugin, program, word]
    done = subprocess.run(words, input=data, stdout=subprocess.PIPE, stderr=subprocess.PIPE)
    return int(re.search(rb"counted (\d+)", done.stderr)[1]), done.stdout


def main():
    if len(sys.argv) < 3:
        sys.exit(__doc__)
    lacking = [name for name in ("qemu-x86_64", "gcc") if not shutil.which(name)]
    if lacking:
        print(f"skipped: {' and '.join(lacking)} missing, nothing was counted")
        return
    other, inputs = sys.argv[1], sys.argv[2:]
    with tempfile.TemporaryDirectory() as room:
        source, plugin = f"{room}/count.c", f"{room}/count.so"
        with open(source, "w") as out:
            out.write(PLUGIN)
        subprocess.run(["gcc", "-O2", "-shared", "-fPIC", "-o", plugin, source], check=True)
        print(f"{'run':32} {'wide':>9} {'ratio':>6} {'without':>9} {'ratio':>6} same")
        for file in inputs:
            with open(file, "rb") as given:
                data = given.read()
            for word in WORDS:
                line, same = f"{word + ' ' + os.path.basename(file):32}", True
                for processor in PROCESSORS:
                    ours, text = run(plugin, processor, OURS, word, data)
                    theirs, wanted = run(plugin, processor, other, word, data)
                    same = same and text == wanted
                    line += f" {ours / 1e6:9.1f} {ours / theirs:6.2f}"
                print(f"{line} {'yes' if same else 'NO'}", flush=True)


main()
