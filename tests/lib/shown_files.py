"""The pages of recipes in docs/use, and the files that they show, for the cases that run what is in them."""
import os, re

TOP = os.path.dirname(os.environ["TESTS"])
# The pages of which each block is tried. `tests/recipes/lines` has them too.
PAGES = ("REPOSITORY", "CI", "FIRST_WEEKS", "TOOLS", "DESK", "UPGRADING", "WATCHING", "LOGS", "SITE")


def page_text(page):
    """The text of a page of recipes, and none where there is no such page."""
    path = f"{TOP}/docs/use/{page}.md"
    if not os.path.exists(path):
        return ""
    with open(path) as file:
        return file.read()


def shown_file(text, name):
    """The first file of this name that a text of a page shows."""
    block = re.search(rf"`{re.escape(name)}`[^\n]*:\n\n((?:    .*\n|\n)+)", text)[1].rstrip("\n") + "\n"
    return re.sub("^    ", "", block, flags=re.MULTILINE)


def write_shown(page, section, names, replaced, folder="."):
    """Writes the files of these names into the folder, as the section of the page shows them, but with other texts for
    those that are to be replaced.
    """
    shown = re.search(rf"^## {re.escape(section)}\n(.*?)(?:^## |\Z)", page_text(page), re.MULTILINE | re.DOTALL)[1]
    for name in names:
        text = shown_file(shown, name)
        for old, new in replaced.items():
            text = text.replace(old, new)
        path = os.path.join(folder, name)
        os.makedirs(os.path.dirname(path) or ".", exist_ok=True)
        with open(path, "w") as file:
            file.write(text)
        if text.startswith("#!"):
            os.chmod(path, 0o755)
