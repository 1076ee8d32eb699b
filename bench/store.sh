#!/usr/bin/env bash
# What one update of the book costs at 1, 64, 512 and 2,048 live credentials: nanoseconds of a removal and of an addition,
# and the bytes that a version keeps beyond what the one before it has.
#
# The bytes are the growth of peak memory between two runs that keep 2,000 and 10,000 versions, every second of them
# made by an addition of 37 bytes, divided by 8,000. They hold the text twice (as a live credential and in the log),
# its reading, and what the allocator adds to each block.
#
# At 2,048 live credentials an update should take at most 50,000 ns and 8,192 bytes beyond its text, and at most three
# times what it takes at 64.
#
# Then, at 2,048, what a batch of 256 additions costs, and one of 256 removals, and the bytes that the version behind a
# batch of additions keeps: between two runs that keep 16 books behind 7 such batches and behind 15, at 1,793 to 3,841
# live. Of these are told apart those of its 256 credentials, each a text of 37 bytes and what was read of it, as two runs
# keep them outside any book, without the pointer of 8 bytes to each; and the texts in the log. What is left is the
# version's own. Last the bytes of the 15 versions that a book retains before its newest, each made by one update: the
# growth of peak memory from 64 newest versions to 64 books.
set -eu

TIME=/usr/bin/time
cd "$(dirname "$0")/../crates/kn_bench"
rt run -- lexer >/dev/null # builds it
program=./out/kn_bench

"$program" updates time
"$program" batches time

# the peak memory of a run with these words
peak_kib() {
    "$TIME" -f %M "$program" "$@" 2>&1 >/dev/null | tail -n 1
}

if [[ -x $TIME ]]; then
    for live in 1 64 512 2048; do
        few=$(peak_kib keep "$live" 2000)
        many=$(peak_kib keep "$live" 10000)
        echo "$live live: $(((many - few) * 1024 / 8000)) bytes a version"
    done
    few=$(peak_kib credentials 10000)
    many=$(peak_kib credentials 50000)
    credentials=$((256 * ((many - few) * 1024 / 40000 - 8)))
    few=$(peak_kib keep-batches 1 7)
    many=$(peak_kib keep-batches 1 15)
    whole=$(((many - few) * 1024 / 128))
    texts=$((256 * 37))
    echo "$whole bytes a version of a batch: $credentials of its credentials, $texts of the log's texts," \
        "$((whole - credentials - texts)) of its own"
    few=$(peak_kib newest 2048 16)
    many=$(peak_kib books 2048 16)
    echo "2048 live: $(((many - few) * 1024 / 64)) bytes of 15 retained versions"
else
    echo "bytes weren't measured: there is no $TIME"
fi
