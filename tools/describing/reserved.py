"""Names that the printed text uses itself: no field may have some, and others need another name for its variable."""
from __future__ import annotations

import textwrap

from describing.names import TAKEN

# Words of the languages: no field may have one of these names.
WORDS = frozenset(
    """
    abstract as assumption async await become box break const continue crate do dyn else ensures enum extern false final
    fn for gen ghost ground if impl in let loop macro match mod move mut override priv pub ref requires return self static
    struct super trait true try type typeof unsafe unsized use virtual where while yield
    """.split()
)
# Words of the languages that would be a type or a case.
TYPE_WORDS = frozenset(("Self", "Type"))
# Words of the language of proofs, which are in quotes as the name of a field.
QUOTED = frozenset(
    """
    abbrev as axiom coe com data deriving do elim fcoe hcom in infix infixl infixr let module mutual open package pub
    record ruleset tcoe unfold unfoldable unfolding use where
    """.split()
)
# Words of the proofs and of the printed code: a variable for a field of such a name has another name.
LIFTED = (QUOTED - WORDS) | frozenset(
    """
    alloc atom byte_list const done even_array even_list field free list own_done
    own_even_list own_field own_list own_optional sure with_error own_bounded own_limited own_limited_size
    chosen filling in_units of_choice of_format of_items over_bytes size_of_part stored_of_part varint vec
    at bit bits cc drop first_bit fits from gives grind map more number o omega optional packet plain reader result
    rw search signed simp take unsigned value word words writer zeros
    """.split()
)
# The names of clauses of the contract: no error has a case of such a name in snake case.
CLAUSES = ("there", "short", "answer", "back")


def listed() -> str:
    """Returns the text that lists all names that `./format` refuses."""
    groups = {
        "No field has one of these names, words of Rust or of Rattle": WORDS,
        "No type or case has one of these names": TYPE_WORDS,
        "No type, and no case of an error, has one of these names": {
            it for it in TAKEN if it.isascii() and it[0].isupper()
        },
        "No case of an error has one of these names": {it.capitalize() for it in CLAUSES},
    }
    wrap = textwrap.TextWrapper(120, initial_indent="    ", subsequent_indent="    ").fill
    return "\n".join(f"{said}:\n\n{wrap(' '.join(sorted(names)))}\n" for said, names in groups.items())
