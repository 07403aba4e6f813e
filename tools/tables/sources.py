"""What the code (crates/*/src) and the definitions (crates/*/specs) say of rules, status words, orders, codes and limits: read here for
tools/tables/make, which makes tables of it, and for tests/status.sh, which compares the two and looks at what is written by hand."""
import re
from pathlib import Path

TOP = Path(__file__).resolve().parent.parent.parent
CRATES = TOP / "crates"
MACHINE = CRATES / "policy_machine"
SLOTS = CRATES / "policy_slots"
CONTENT = CRATES / "content_rules"
RULES = CRATES / "policy_rules"
TYPES = CRATES / "card_types"
TOOL = CRATES / "gp_tool/src"


def text_of(folder, pattern):
    return "\n".join(path.read_text() for path in sorted(Path(folder).glob(pattern)))


def pairs(pattern, text):
    return dict(re.findall(pattern, text, re.M))


def coded(pattern, text):
    """Names with a number each, by what the number is in two digits."""
    return {f"{int(number, 16):02X}": name for name, number in re.findall(pattern, text, re.M)}


def number_in(text, name):
    return int(re.search(rf"^ *(?:pub(?:\(crate\))? )?const {name}: \w+ = (\w+);", text, re.M).group(1), 0)


def constant(path, name):
    return number_in(Path(path).read_text(), name)


# The rules: what the code calls them and answers, and what the definitions say.
source = text_of(MACHINE / "src", "*.rt")
specs = text_of(MACHINE / "specs", "*.antt")
enums = "".join(re.findall(r"^pub enum Rule[A-Z]+ \{(.*?)^\}", source, re.M | re.S))
variants = re.findall(r"^    (\w+),$", enums, re.M)
names = pairs(r'::(\w+)\)? => Refusal::new\("(\w+)", 0x\w{4}\),$', source)
statuses = pairs(r'::(\w+)\)? => Refusal::new\("\w+", 0x(\w{4})\),$', source)
refusals = pairs(r'refusal \(codes "(\w+)"\) 0x(\w{4})$', specs)

# The status words: those of rules, those of accepted commands, and that of a failed device.
given = {*statuses.values(), *re.findall(r"\bStatus\(0x(\w{4})\)", text_of(CRATES / "card_core/src", "*.rt"))}

# The order of the rules of each command.
lists = {}
for name, body in re.findall(r"^abbrev pub (\w+) : (?:ℕ → )?List Rule[A-Z]*\n((?:.+\n)+)", specs, re.M):
    lists[name] = body.split("=", 1)[1] if "if " not in body else re.search(r"then (.*) else", body).group(1)


def expand(body):
    rules = []
    for word in re.findall(r"\w+", body):
        if word in lists:
            rules += expand(lists[word])
        elif word in statuses:
            rules.append(word)
    return rules


def orders(titles):
    """For each command its instruction byte and its rules in order. Titles has the name of each form of card content management, by the
    group of its own rules."""
    found = {}
    on_form = expand(lists["form_rules"].split("++")[1])
    first = re.search(r"^rules_before_form ins = if ins == 0x(\w\w)", specs, re.M).group(1)
    head = r"^-- (.*)\nabbrev pub \w+ : CommandForm\n\w+ = "
    whole = re.findall(head + r"record \{\n  instruction = 0x(\w\w);\n(?:.*\n)*?  rules = (\w+);", specs, re.M)
    unreceipted = re.findall(head + r"unreceipted_form 0x(\w\w) .* (\w+) \w+Fails \w+$", specs, re.M)
    for title, ins, rules in whole + unreceipted:
        before = expand(lists["rules_before_form"]) if ins == first else []
        found[title.split(",")[0]] = [ins, before + on_form + expand(lists[rules])]

    # A form of card content management: the rules on card and domain, those of its own, and those on the approval. What it does not say
    # itself is what `content_form` says.
    begun = re.search(r"^content_form .*\n((?:  .*\n)+)", specs, re.M).group(1)
    approvals = {"to_nobody": [], "to_holders": expand(lists["delegation_rules"])}
    for ins, said in re.findall(r"\(content_form (?:\{.*?\} )?0x(\w\w) .*?\) (\{.*(?:\n    .*|\n  [od].*)*)", specs):
        group, own_rules = re.search(r"\bown = ordered_rules (\w+) \((.*?)\)", said).groups()
        early, delegation = [re.search(rf"\b{field} = (.*);", said + begun).group(1) for field in ("first_rules", "delegation")]
        approval = re.search(r"\brules = (.*?) \}", delegation)
        late = expand(approval.group(1)) if approval else approvals[delegation.split()[0]]
        found[titles[group]] = [ins, on_form + expand(early) + expand(own_rules) + late]
    return found


# The instruction bytes, and the instructions of each class.
instructions = pairs(r"^pub const (\w+): u8 = 0x(\w\w);$", (MACHINE / "src/instruction.rt").read_text())
lists_of_class = re.findall(r"^const (\w+): \[u8; \d\] = \[([^]]*)\];$", (MACHINE / "src/class.rt").read_text(), re.M)
of_class = {name: re.findall(r"\w+", body) for name, body in lists_of_class}


# Life cycle states and security levels.
def snake(name):
    """OpReady stands as OP_READY."""
    return re.sub(r"(?<=[a-z])(?=[A-Z])", "_", name).upper()


def variants_of(file, enum):
    body = re.search(rf"^pub enum {enum} \{{(.*?)^\}}", (TYPES / "src" / file).read_text(), re.M | re.S).group(1)
    return coded(r"^    (\w+) = 0x(\w+),$", body)


def defined(file, function):
    return coded(rf"^{function} (\w+) = 0x(\w+)$", (TYPES / "specs" / file).read_text())


card_states = variants_of("card_life.rt", "CardLife")
entry_states = variants_of("life.rt", "Life")
lock = constant(TYPES / "src/life.rt", "LOCK")
loaded = constant(CRATES / "card_core/src/status_template.rt", "LOADED")
levels = variants_of("level.rt", "Level")
in_levels = [(0x01, "C-MAC"), (0x02, "C-DECRYPTION"), (0x10, "R-MAC"), (0x20, "R-ENCRYPTION")]

# The privileges: their bits, and who grants them.
bits = re.findall(r"^        const (\w+) = 0x(\w+);$", (TYPES / "src/privileges.rt").read_text(), re.M)
privileges = {name: int(number, 16) for name, number in bits}
install = CONTENT / "src/install_application.rt"
refused_privileges = constant(install, "REFUSED")
guarded = re.search(r"^const GUARDED: .*?\];$", install.read_text(), re.M | re.S).group(0)


def tied(crate, name):
    """The number that a constant of a crate is proved to be."""
    return int(re.search(rf"\{{ {name} ≡ (\w+) \}}", (CRATES / crate / "src/literals.rt").read_text()).group(1), 0)


def granted_by(name):
    if privileges[name] & refused_privileges:
        return "nobody"
    return "who holds it" if re.search(rf"\bPrivileges::{name}\b", guarded) else "any domain that manages"


# The keys: key version numbers and key identifiers, as the definition of a key's name has them.
key_name = re.search(r"^IsKeyName version identifier =\n((?:    .*\n)+)", (TYPES / "specs/Well.antt").read_text(), re.M).group(1)
lowest, highest, least, most, *lone_versions, lone_identifier = [int(number, 16) for number in re.findall(r"0x(\w\w)", key_name)]
lone_keys = {constant(SLOTS / "src/delegation.rt", name): name.replace("_", " ").lower() for name in ("TOKEN_KEY", "RECEIPT_KEY")}

# The data objects: for each tag how many bytes its value has.
objects_text = (TYPES / "src/data_objects.rt").read_text()
object_sizes = {}
for tags, sizes in re.findall(r"^        ([A-Z].*) => (.*),$", objects_text, re.M):
    for tag in tags.split(" | "):
        object_sizes[f"{number_in(objects_text, tag):04X}"] = " to ".join(re.findall(r"\d+", sizes))

# How the program ends: endings, cards that are not powered on, words; and the script that builds it.
tool_text = (CRATES / "line_runs/src/exit.rt").read_text()
tool_text += "".join((TOOL / name).read_text() for name in ("run_verb.rt", "top.rt", "desk_verb.rt", "cap_verb.rt"))
ends = set(re.findall(r"(?:=> |status_with\()(\d+)[,)]$", tool_text, re.M)) | set(re.findall(r"ExitCode::from\((\d+)\)", (TOOL / "program.rt").read_text()))
no_binary = re.search(r"^readonly no_binary=(\d+)$", (TOP / "tools/prove").read_text(), re.M).group(1)

# The limits.
limits = pairs(r"^pub const (\w+): \w+ = (\w+);$", (TYPES / "src/limits.rt").read_text())
limits = {name: int(value.replace("_", ""), 0) for name, value in limits.items()}
limits["BLOCKS"] = constant(CONTENT / "src/load.rt", "BLOCKS")
limits["PAGE"] = int(re.search(r"pub bytes: \[u8; (\d+)\]", (CRATES / "flash_core/src/page.rt").read_text()).group(1))

# The pages of a card, first and last of each part; and how many slots of a kind a page has, of how many bytes.
pages = {"superblock": (0, 0)}
for kind, count in (("entry", "ENTRIES"), ("file", "FILES"), ("key", "KEYS"), ("object", "OBJECTS")):
    first, size = tied("rec_store", f"FIRST_{kind.upper()}_PAGE"), tied("rec_store", f"{kind.upper()}_BYTES")
    pages[kind] = (first, first + limits[count] * size // limits["PAGE"] - 1)
    limits |= {f"{count}_A_PAGE": limits["PAGE"] // size, f"{kind.upper()}_BYTES": size}
for name in ("GATE", "DESCRIPTOR"):
    pages[name.lower()] = (tied("page_journal", name), tied("page_journal", name))
limits["COPIES"] = constant(CRATES / "frame_pool/src/pool.rt", "FRAMES")
pages["copies"] = (tied("page_journal", "COPIES"), tied("page_journal", "COPIES") + limits["COPIES"] - 1)
load = tied("page_journal", "FIRST_LOAD_PAGE")
pages["unused"] = (pages["copies"][1] + 1, load - 1)
pages["load"] = (load, load + limits["LOAD_PAGES"] - 1)
limits["PAGES"] = constant(CRATES / "flash_core/src/page.rt", "PAGES")
