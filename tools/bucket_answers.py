"""What the bucket answered to the entries of a log, by Cloud Storage's rules for generations and preconditions."""

ANY, ABSENT = "*", "0"


class Answers:
    """The live objects by their names, each with its generation and metageneration, as a log makes them."""

    def __init__(self, objects):
        self.live, self.last = {}, 0
        for each in objects:
            self.make(each["name"].encode("utf-8", "surrogatepass").hex())

    def make(self, name):
        """A new generation under a name."""
        self.last += 1
        self.live[name] = (self.last, 1)
        return f"generation {self.last}"

    def of(self, entry):
        """The answer to an entry as text; where there is nothing to say, none."""
        if entry.mode == "failed":
            return "failed, not done"
        word, *operands = entry.operation
        answer = getattr(self, word)(*operands)
        return f"{answer}, but the answer is lost" if entry.mode == "lost" else answer

    def generation(self, name):
        """The generation that is live under a name, as a precondition writes it."""
        return str(self.live[name][0]) if name in self.live else ABSENT

    def stat(self, name):
        """Whether an object is live."""
        return f"generation {self.generation(name)}" if name in self.live else "none"

    def read(self, name, generation, *_):
        """Bytes of a generation, only while it is live."""
        return "" if self.generation(name) == generation else "none"

    def insert(self, name, only, *_):
        """A new generation, where the precondition holds."""
        return self.make(name) if only in (ANY, self.generation(name)) else "refused"

    def update(self, name, only, meta, *_):
        """Other metadata of a live generation, where the preconditions hold."""
        if name not in self.live:
            return "none"
        generation, metageneration = self.live[name]
        if only not in (ANY, str(generation)) or meta not in (ANY, str(metageneration)):
            return "refused"
        self.live[name] = (generation, metageneration + 1)
        return f"metageneration {metageneration + 1}"

    def delete(self, name, only):
        """The end of a live object, where the precondition holds."""
        if name not in self.live:
            return "none"
        if only not in (ANY, self.generation(name)):
            return "refused"
        del self.live[name]
        return "done"

    def copy(self, source, generation, to, _):
        """A new generation with the content of another, only while that is live."""
        return self.make(to) if self.generation(source) == generation else "none"

    def list(self, *_):
        """Names, of which nothing is said here."""
        return ""
