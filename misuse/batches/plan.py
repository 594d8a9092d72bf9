"""Which edits are tried in one check."""
from batches.edits import Placed, Stale, Texts, put_into

Batch = tuple[Placed, ...]


def batches(edits: list[Placed], texts: Texts) -> list[Batch]:
    """The edits in batches: no two of one function, each that changes a type, a constant, a table or a contract by
    itself, and all of a batch fit into the texts together."""
    found: list[list[Placed]] = []
    for edit in edits:
        home = next((it for it in found if fits(edit, it, texts)), None)
        if home is None:
            found.append([edit])
        else:
            home.append(edit)
    return [tuple(it) for it in found]


def fits(edit: Placed, batch: list[Placed], texts: Texts) -> bool:
    """Whether an edit may stand beside those of a batch."""
    if edit.is_alone or any(it.is_alone or meet(it, edit) for it in batch):
        return False
    try:
        together((*batch, edit), texts)
    except Stale:
        return False
    return True


def meet(one: Placed, other: Placed) -> bool:
    """Whether two edits change one function, or a function and one in it."""
    return any(a.has(b.path) or b.has(a.path) for a in one.functions for b in other.functions)


def together(batch: Batch, texts: Texts) -> Texts:
    """The texts with all edits of a batch in them."""
    for it in batch:
        texts = put_into(it.edit, texts)
    return texts


def halves(batch: Batch) -> list[Batch]:
    """A batch in two."""
    middle = len(batch) // 2
    return [batch[:middle], batch[middle:]]
