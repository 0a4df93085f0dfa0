"""The programs around the engine, an input in, what is printed out: `plotbook` of document 01, `booktext` of U1 and `generate`
of U3."""

from .engine import Engine


class Model(Engine):
    passed_bytes = 41  # of a longer line the program passes no more
    room = 4096
    room_for_text = 16384  # that of booktext and generate; no text is longer than the longest
    longest_text = 8851  # 16 T lines of 34 bytes, a P line of 18 and 127 of 31, 128 S lines of 18, 128 L lines of 16

    def lines(self, data):
        """The lines of an input, without byte 10. A last line without that byte counts if it isn't empty."""
        lines = data.split(b"\n")
        if not lines[-1]:
            lines.pop()
        return [line[: self.passed_bytes] for line in lines]

    def printed(self, data):
        """What each line prints, and then what the end does."""
        state = self.start()
        buffer = bytearray(self.room)
        for line in self.lines(data):
            state, answer = self.step(state, line, buffer)
            yield self.text(answer, buffer)
        yield self.text(self.end(state, buffer), buffer)

    def text(self, answer, buffer):
        return bytes(buffer[: answer.number]) if answer.wrote else b"E,%d\n" % answer.number

    def output(self, data):
        return b"".join(self.printed(data))

    # booktext

    def after(self, data):
        """The state that the lines of an input make."""
        state, buffer = self.start(), bytearray(self.room)
        for line in self.lines(data):
            state, answer = self.step(state, line, buffer)
        return state

    def book_output(self, data):
        """The text of the book that the lines make, at the end, and nothing else."""
        buffer = bytearray(self.room_for_text)
        return self.text(self.write_book(self.after(data), buffer), buffer)

    # generate

    def load_output(self, words):
        """What comes of the words behind the program's name: the text of the book of a start and a number of plots, or E with a refusal.
        Words that aren't two numbers, the start of 32 bits and the other of 64, are told on standard error, and nothing is printed."""
        if len(words) != 2 or not all(map(self.is_whole_number, words)):
            return b""
        start, plots = map(int, words)
        if start >= 2**32 or plots >= 2**64:
            return b""
        buffer = bytearray(self.room_for_text)
        return self.text(self.write_load(start, plots, buffer), buffer)

    def is_whole_number(self, word):
        return word.isdigit() and (word == b"0" or not word.startswith(b"0"))
