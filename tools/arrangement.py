"""Orders the definitions of the booklet top down: each follows a contract or a definition that mentions it.

docs/booklet/parts.json lists the parts and their chapters. A chapter has a title, a text, the public functions whose
contracts open it (`contracts`), the definitions that it starts with (`first`), and what it includes (`takes`): crates,
files of definitions (`engine.Run`) or single definitions (`engine.Run.Rooms`). A definition belongs to the chapter that
includes it by the longest name, among those of its part and of later ones; its part is the first whose contracts depend
on it.

Within a chapter the definitions of a file are grouped. The file whose definition was mentioned first comes first, with
its definitions mentioned so far; those that only later definitions mention follow later. tools/booklet uses this module.
"""
import re

import specs
from specs import ROOT
from texts import contract

PARTS = "docs/booklet/parts.json"


def name_of(key):
    """Returns the name of a definition with its crate and file."""
    return ".".join(key)


def first_mention(text, cited):
    """Returns the position where a text first mentions a cited name, and the name."""
    found = re.search(rf"(?<![\w'-]){re.escape(cited[2].strip('◌'))}(?![\w'-])", text)
    return (found.start() if found else len(text), cited)


class Arrangement:
    def __init__(self, definitions, texts, parts, headline):
        self.definitions, self.texts, self.parts, self.errors = definitions, texts, parts, []
        # The definitions mentioned so far, and those that have been placed: keys of dictionaries, which keep their order.
        self.mentioned, self.placed, self.known = {}, {}, {}
        self.heads = {tuple(function): self.heads_of(*function) for function in headline}
        self.check_contracts(headline)
        self.reached = self.closure([key for heads in self.heads.values() for key in heads])
        self.chapter_of = self.chapters()

    def found_in(self, text, cited):
        """Returns the definitions that a text cites, in the order in which it mentions them."""
        ordered = sorted(cited, key=lambda name: first_mention(text, name))
        return list(dict.fromkeys(filter(None, map(self.definitions.found, ordered))))

    def heads_of(self, crate, name):
        """Returns the definitions that the contract of a function mentions."""
        path, lines = contract(crate, name)
        names, modules = specs.imports(specs.without_comments(path.read_text(), "//"))
        text = "\n".join(lines)
        return self.found_in(text, specs.cited(text, names, modules))

    def mentions(self, key):
        """Returns the definitions that a definition mentions."""
        if key not in self.known:
            text = "\n".join(self.texts.of[key][2]) if key in self.texts.of else ""
            self.known[key] = [found for found in self.found_in(text, self.definitions.cites[key]) if found != key]
        return self.known[key]

    def closure(self, keys):
        """Returns these definitions and all that they depend on."""
        seen, queue = {}, list(keys)
        while queue:
            key = queue.pop()
            if key not in seen:
                seen[key] = None
                queue += self.mentions(key)
        return list(seen)

    def functions(self, chapter):
        return [tuple(function) for function in chapter.get("contracts", [])]

    def check_contracts(self, headline):
        """Reports headline contracts that do not open exactly one chapter, and other contracts that open one."""
        shown = [function for part in self.parts for chapter in part["chapters"] for function in self.functions(chapter)]
        for function in headline:
            if shown.count(function) != 1:
                self.errors.append(f"{PARTS}: {'::'.join(function)} opens {shown.count(function)} chapters")
        for function in dict.fromkeys(shown):
            if function not in headline:
                self.errors.append(f"{PARTS}: {'::'.join(function)} is not a headline contract of tools/booklet")

    def chapters(self):
        """Returns the index of each definition's part, and of its chapter in the part."""
        home = {}
        for at, part in enumerate(self.parts):
            heads = [key for chapter in part["chapters"] for function in self.functions(chapter) for key in self.heads.get(function, [])]
            for key in self.closure(heads):
                home.setdefault(key, at)
        chapter_of, used = {}, set()
        for key in self.reached:
            names = [name_of(key), f"{key[0]}.{key[1]}", key[0]]
            eligible = [
                (names.index(name), at, index, name)
                for at, part in enumerate(self.parts)
                for index, chapter in enumerate(part["chapters"])
                for name in chapter.get("takes", [])
                if name in names and at >= home.get(key, 0)
            ]
            if not eligible:
                self.errors.append(f"{name_of(key)}: no chapter of {PARTS} includes this definition")
                continue
            _, at, index, name = min(eligible)
            chapter_of[key] = (at, index)
            used.add((at, index, name))
        for at, part in enumerate(self.parts):
            for index, chapter in enumerate(part["chapters"]):
                unused = [name for name in chapter.get("takes", []) if (at, index, name) not in used]
                self.errors += [f"{PARTS}: {chapter['title']}: {name} has no definition that belongs there" for name in unused]
        return chapter_of

    def append(self, key):
        self.placed[key] = None
        self.mentioned |= dict.fromkeys(found for found in self.mentions(key) if found not in self.mentioned)

    def groups(self, at, index):
        """Returns the files of a chapter's definitions, each with its definitions. To be called in the order of the chapters."""
        chapter = self.parts[at]["chapters"][index]
        heads = [key for function in self.functions(chapter) for key in self.heads.get(function, [])]
        self.mentioned |= dict.fromkeys(key for key in heads if key not in self.mentioned)
        here = {key: None for key in self.reached if self.chapter_of.get(key) == (at, index)}
        first = {name_of(key): key for key in here}
        leads = [first[name] for name in chapter.get("first", []) if name in first]
        self.errors += [f"{PARTS}: {chapter['title']}: {name} does not belong there" for name in chapter.get("first", []) if name not in first]
        found = []

        def ready():
            order = dict.fromkeys([*leads, *heads, *self.mentioned])
            return [key for key in order if key in here and key in self.mentioned and key not in self.placed]

        while ready():
            module, group = ready()[0][:2], []
            while siblings := [key for key in ready() if key[:2] == module]:
                group.append(siblings[0])
                self.append(siblings[0])
            found.append((module, group))
        for key in here:
            if key not in self.placed:
                self.errors.append(f"{name_of(key)}: it belongs to {chapter['title']}, before everything that mentions it")
        return found
