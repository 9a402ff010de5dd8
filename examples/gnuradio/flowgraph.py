"""Telegrams through a noisy link in GNU Radio, headless: how many were read as they were sent.

    python3 examples/gnuradio/flowgraph.py [--count N] [--noise X] [--turned-over]

Needs GNU Radio 3.10 (Debian: gnuradio) and the package cinorbis (tools/wheel makes it).
"""

import argparse
import collections
import time

import numpy as np
import pmt
from gnuradio import analog, blocks, gr
from telegram_reader import telegram_reader

from cinorbis import Telegram


class flowgraph(gr.top_block):
    """Soft bits of clean words, over and over, plus noise; the reader; a store of its messages.

    A demodulator takes the place of `clean` and `channel`. If it gives plus for 1, as many of GNU
    Radio's do, every telegram is refused as 13, and a `sign` of -1 mends it.
    """

    def __init__(self, words, noise, sign):
        gr.top_block.__init__(self, "telegrams")
        clean = blocks.vector_source_f(np.where(words == 1, -1.0, 1.0).ravel().tolist(), True)
        hull = analog.noise_source_f(analog.GR_GAUSSIAN, noise, 1)
        channel, polarity = blocks.add_ff(), blocks.multiply_const_ff(sign)
        self.connect(clean, (channel, 0))
        self.connect(hull, (channel, 1))
        # GNU Radio holds no reference to a block in Python, so the flowgraph does
        self.reader, self.store = telegram_reader(), blocks.message_debug()
        self.connect(channel, polarity, blocks.stream_to_vector(gr.sizeof_float, 32), self.reader)
        self.msg_connect(self.reader, "telegrams", self.store, "store")

    def messages(self, count):
        """Runs until so many telegrams have been read: their messages, and the seconds it took."""
        begun = time.perf_counter()
        self.start()
        while self.store.num_messages() < count:
            time.sleep(0.01)
        took = time.perf_counter() - begun
        self.stop()
        self.wait()
        return [pmt.to_python(self.store.get_message(i)) for i in range(count)], took


def main():
    parser = argparse.ArgumentParser(description=__doc__.splitlines()[0])
    parser.add_argument("--count", type=int, default=20_000, help="telegrams to send (20000)")
    parser.add_argument("--noise", type=float, default=0.5, help="in sizes of a soft bit (0.5)")
    parser.add_argument("--turned-over", action="store_true", help="negate every soft bit")
    given = parser.parse_args()
    draw, sent = np.random.default_rng(1), []
    for i in range(max(given.count, 1)):
        tilt, to = int(draw.integers(1, 1501)) / 100, str(draw.choice(["port", "starboard"]))
        sent.append(Telegram(i % 8, tilt, to))
    words = np.stack([one.word() for one in sent])
    sign = -1 if given.turned_over else 1
    heard, took = flowgraph(words, given.noise, sign).messages(given.count)
    refusals = collections.Counter(one["refusal"] for one in heard if one["refusal"])
    shown = [one for one in heard if not one["refusal"]]
    right = sum(
        Telegram(one["cylinder"], one["tilt"], one["to"] or None) == sent[one["number"]]
        for one in shown
    )
    why = "".join(f", {count} as {number}" for number, count in sorted(refusals.items()))
    print(f"{given.count} telegrams: {right} read as sent, {len(shown) - right} as another")
    print(f"{sum(refusals.values())} refused{why}")
    print(f"{took:.2f} s in GNU Radio {gr.version()}")


if __name__ == "__main__":
    main()
