"""The functions of a Rattle file, which is laid out as `rt fmt` lays it out: a clause begins a line of its own, and a brace alone opens the body behind clauses.
What a trait has a function of an `impl` give is its clause too: `ghost from_gives` is the `ensures` of `from`, and what the file's own trait promises of a method."""
import re
from typing import NamedTuple

FUNCTION = re.compile(r'^( *)(pub )?(?:extern "C" )?fn (\w+)(<[^>]*>)?')
ANY = re.compile(r'^ *(?:[\w()]+ |"C" )*fn \w')
OWN = re.compile(r'^impl(?:<[^>]*>)? (\w+)(?:<[^>]*>)? \{$')
TRAIT = re.compile(r'^impl(?:<[^>]*>)? (\w+)(?:<(.*)>)? for (\w+)(?:<[^>]*>)? \{$')
DECLARED = re.compile(r'^(pub )?trait (\w+)')
GIVES = re.compile(r'^    ghost (\w+)_gives = ')


class Unknown(Exception):
    """A form that is not read here."""


class Function(NamedTuple):
    """A function's name, as `f` or `S.f`, or `STrait.f` of a struct's trait, whether it is public, as one of a trait is that has clauses of its own and is no private trait of the file, the words of its clauses, the comment above it, and the traits that bound its type parameters."""
    name: str
    public: bool
    clauses: frozenset
    comment: str
    bounds: frozenset


def clauses(lines, indent):
    """The words of the clauses between a function's first line and the brace that opens its body, or the semicolon of one that has none."""
    found = set()
    for line in lines:
        word = line[len(indent):].strip().split(' ')[0]
        if word in ('requires', 'ensures', 'ghost'):
            found.add(word)
        if line == f'{indent}{{' or line.endswith((' {', ';')):
            break
    return frozenset(found)


def comment(lines):
    """The comment at the end of the lines before a function, attributes aside."""
    found = []
    for line in reversed(lines):
        if not line.strip().startswith(('//', '#[')):
            break
        found.insert(0, line.strip().removeprefix('//').strip())
    return ' '.join(found)


def of_struct(trait, parameter, struct):
    """The checker's name for a struct's trait: `VerdictFromResultUnitRefusal`, `CountedFromOptionRoomsPair` of an `Option<rooms::Pair>`."""
    words = re.findall(r'\w+', (parameter or '').replace('()', 'Unit'))
    return f'{struct}{trait}' + ''.join(word[0].upper() + word[1:] for word in words)


def promised(lines):
    """The methods that a file's traits promise something of, as pairs of a trait and a method."""
    trait = None
    for number, line in enumerate(lines):
        declared, found = DECLARED.match(line), FUNCTION.match(line)
        if declared or line == '}':
            trait = declared[2] if declared else None
        if trait and found and 'ensures' in clauses(lines[number:], found[1]):
            yield trait, found[3]


def functions(text):
    """Each function of a file."""
    owner, of_trait, given, lines = None, False, set(), text.split('\n')
    of_traits = set(promised(lines))
    private = {declared[2] for declared in map(DECLARED.match, lines) if declared and not declared[1]}
    for number, line in enumerate(lines):
        block, trait = OWN.match(line), TRAIT.match(line)
        if block or trait or line == '}':
            owner = block[1] if block else of_struct(*trait.groups()) if trait else None
            of_trait = trait is not None and trait[1] not in private
            given = {name for of, name in of_traits if trait and of == trait[1]}
        member = GIVES.match(line)
        if member:
            given = given | {member[1]}
        found = FUNCTION.match(line)
        if found:
            indent, public, name, parameters = found.groups()
            bounds = frozenset(re.findall(r'[:+] *(\w+)', parameters or ''))
            words = clauses(lines[number:], indent)
            said = words | ({'ensures'} if name in given else set())
            shown = public is not None or of_trait and 'ensures' in said
            yield Function(f'{owner}.{name}' if owner else name, shown, said, comment(lines[:number]), bounds)
        elif ANY.match(line):
            raise Unknown(f'a function that is not read: {line.strip()}')
