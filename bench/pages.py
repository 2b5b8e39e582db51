#!/usr/bin/env python3
"""Writes 65,536 texts of some 250 words each, drawn by Zipf's law with a fixed seed: pages.py FILE [PAGES]

A byte 12 (FF) ends each text."""
import itertools
import random
import sys

PAGES = int(sys.argv[2]) if len(sys.argv) > 2 else 65536
WORDS_A_PAGE = 250
VOCABULARY = 50000
# words that the timed queries ask for, at their places in the order of how common a word is
PLACED = {8: "moon", 20: "sun", 300: "rain", 49000: "rarely"}

random.seed(1436)
onsets = ["b", "d", "f", "g", "k", "l", "m", "n", "p", "r", "s", "t", "v", "st", "tr", "pl"]
vowels = ["a", "e", "i", "o", "u", "ai", "ou"]
syllables = [onset + vowel for onset in onsets for vowel in vowels]
words, seen = [], set(PLACED.values()) | {"nowhere", "and", "or", "not"}
while len(words) < VOCABULARY:
    if len(words) in PLACED:
        words.append(PLACED[len(words)])
        continue
    word = "".join(random.choice(syllables) for _ in range(random.randint(1, 4)))
    if word not in seen:
        seen.add(word)
        words.append(word)
weights = list(itertools.accumulate(1 / (rank + 1) for rank in range(VOCABULARY)))
with open(sys.argv[1], "w", newline="") as out:
    for page in range(PAGES):
        drawn = random.choices(words, cum_weights=weights, k=WORDS_A_PAGE + random.randint(-50, 50))
        lines = [" ".join(drawn[i : i + 12]) for i in range(0, len(drawn), 12)]
        out.write("\r\n".join(lines) + "\r\n.\r\n\x0c")
