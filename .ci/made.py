"""Texts that are made from one source, so that each list is written once.

The commands are those of docs/REFERENCE.md: a heading for each, and the first sentence below it.
What is proved of a crate is the head of its lib.rt (or main.rt).
"""
import functools
import glob
import os
import re
import subprocess
from typing import Iterator

from shared import ROOT

from common import edit_of, file_of_definition
from reference import Form, Reference

# what the commands are about
GROUPS = {
    "processes": "spawn fork exit",
    "mappings": "mmap munmap mprotect mremap",
    "what pages are for": "madvise mlock munlock",
    "bytes": "read write",
    "reports": "maps areas rmap entry stat slot",
    "swap": "swapon swapoff reclaim age complete",
    "frames": "merge compact",
}

# the items of a crate whose contracts carry what its head says; a crate without an entry has none
CARRIERS = {
    "av_base": "Prot Flags Steps",
    "av_vma": "Areas index joinable can_lend",
    "av_text": "Bytes",
    "av_trace": "read_command reply_text note_text answer_line one_reply",
    "av_line": "parse_line one_meaning",
    "av_frames": "Frames",
    "av_pagetable": "Table RadixTable Tables",
    "av_lru": "Lru",
    "av_swapmap": "Counts digits_are_worth_the_count",
    "av_clusters": "Clusters",
    "av_arena": "Avl Arena",
    "av_interval": "Spans search",
    "av_chain": "Links unlink_from each_link_stands_once",
    "av_anon": "Anons order kin",
    "av_rmap": "walk walk_sorted walk_frame walk_slot walk_merged Items clear_seen "
    "clear_seen_items unmap",
    "av_vmatree": "Tree",
    "av_merge": "map unmap modify modify_all map_like move_range grow prepare fork unmap_all "
    "parts_are_changed_page_by_page",
    "av_io": "Source Sink MemSource MemSink ReadSource WriteSink",
    "av_swapdev": "SwapDev MemDev FileDev SwapFile SwapFiles read_header is_bad bad_pages",
    "av_swapcache": "Swap",
    "av_plain": "soundness_stays transcripts_are_sound runs_are_legal what_sound_says "
    "the_greatest_priority_gives no_device_has_no_failures "
    "no_area_on_has_no_failures",
    "av_laws": "refusals_change_nothing locked_frames_stay merges_share_frames "
    "compactions_take_the_lowest_frames numbers_add_up replies_are_determined "
    "replies_of_runs_are_read_back texts_of_runs_say_replies runs_lay_areas runs_cover_entries",
    "av_audit_laws": "replies_tell_events units_leave_one transcripts_are_judged",
    "av_lock_laws": "frames_stay_over_completions frames_stay_over_passes "
    "frames_stay_over_reclaims",
    "av_audit_index": "Holders",
    "av_audit_queue": "Queue",
    "av_audit_pages": "Pages",
    "av_audit_book": "Book Machine Spared",
    "av_audit_events": "touch zap_process zap_range fork move_entries turn_on turn_off",
    "av_audit_judge": "seeks takes fetches swaps_in completes judges_complete judges_age "
    "judges_reclaim judges_exit judges_munmap",
    "av_command_laws": "the_greatest_goes_to_the_least the_runs_are_one",
    "av_audit_report": "judges_entry judges_maps judges_rmap judges_slot judges_stat",
    "av_audit_area": "judges_areas",
    "av_audit_ranges": "Ranges Marks Change Range",
    "av_audit_world": "Memories Space Edit",
    "av_audit_access": "accesses",
    "av_audit_swapoff": "Close closes",
    "av_audit_neighbour": "judges_merge judges_compact",
    "av_audit_machine": "read_machine machine_of_heads",
    "av_audit": "Auditor",
    "av_audit_input": "Script first_command read_trace read_unit",
    "av_audit_run": "audit audits_of_inputs legal_or_stopped stopped_once "
    "breaks_come_before_what_is_wrong",
    "av_swap_laws": "frames_are_put slots_are_loaded slots_are_dropped soundness_goes_on",
    "av_evict": "System reclaim age complete seek",
    "av_spaces": "Spaces",
    "av_mem": "Mem Keeps KeepsBetween take_frame_of_zeros take_frame_for_copy count_each_for_child"
    " zap_range zap_all walk",
    "av_ksm": "merge candidate share join frames_are_shared pages_join",
    "av_reclaim": "Driver reclaim age complete seek",
    "av_swapoff": "SlotSystem swapoff",
    "av_fork": "fork_areas fork_entries",
    "av_mremap": "remap_areas remap_entries",
    "av_migrate": "compact compact_frames frames_go_over free_frames_are_ordered",
    "av_fault": "touch",
    "av_place": "find_place find_gap find_target check_protect check_remap is_too_long "
    "is_no_range leaves_old check_indices",
    "av_step": "Does DoesBeside check_lives answer_with",
    "av_swap": "swapon swapoff slot reclaim age complete",
    "av_report": "maps areas rmap entry stat totals",
    "av_access": "read write",
    "av_kernel": "Kernel",
    "av_words": "read_words",
    "av_ports": "Ports Pending read_on read_line write_all",
    "av_replay": "run good_traces_are_done good_traces_are_judged "
    "done_runs_write_their_transcript bad_lines_end_runs "
    "lines_are_done_up_to_the_most replies_are_out_before_a_read failed_writes_cut_the_last_reply",
    "av_round_laws": "done_runs_are_found_legal",
    "avsim": "text_for exit_number Failure",
    "av_sample": "ask judge_line",
}


def text_of(file: str) -> str:
    """The text of a file of the repository."""
    with open(f"{ROOT}/{file}", encoding="utf-8") as it:
        return it.read()


def crates() -> list[str]:
    """The names of the crates, lowest first."""
    return re.findall(r"^(\w+)(?: \w+)?:", text_of("crates.txt"), re.M)


def root_file(crate: str) -> str:
    """The file that a crate begins with."""
    library = f"crates/{crate}/src/lib.rt"
    return library if os.path.exists(f"{ROOT}/{library}") else f"crates/{crate}/src/main.rt"


def head_of(crate: str) -> list[str]:
    """The paragraphs of a crate's head."""
    lines = re.findall(r"^//! ?(.*)$", text_of(root_file(crate)), re.M)
    return [" ".join(it.split("\n")) for it in re.split(r"\n\n+", "\n".join(lines).strip())]


def anchor_of(heading: str) -> str:
    """The name by which a page is led to one of its headings."""
    return re.sub(r"[^\w -]", "", heading.lower()).replace(" ", "-")


def contents(text: str) -> Iterator[str]:
    """The sections of a document, each with those below it. (Of a command's the name alone stands
    there.)
    """
    rows: list[list[str]] = []
    for level, heading in re.findall(r"^(##|###) (.*)", text, re.M):
        if level == "##":
            rows.append([])
        name = heading if level == "##" else re.sub(r" [A-Z\[].*", "", heading)
        rows[-1].append(f"[{name}](#{anchor_of(heading)})")
    yield "; ".join(": ".join(filter(None, [first, ", ".join(it)])) for first, *it in rows)


def commands_list(_: str) -> Iterator[str]:
    """The commands by what they are about, each with the way to its section."""
    forms = dict(Reference().forms)
    for group, names in GROUPS.items():
        yield f"- {group}: {', '.join(link_to(forms.pop(it)) for it in names.split())}"
    if forms:
        yield f"- Others: {', '.join(map(link_to, forms.values()))}"


def link_to(form: Form) -> str:
    """A command with its words, and the way to its section."""
    words = " ".join([form.name, *form.kinds])
    return f"[`{words}`](docs/REFERENCE.md#{anchor_of(form.heading)})"


def crates_table(_: str) -> Iterator[str]:
    """What each crate is, and what carries what is proved of it."""
    yield "| Crate | What it is | Carried by |"
    yield "|---|---|---|"
    for crate in crates():
        what = re.split(r"(?<=[^.][.])\s", head_of(crate)[0])[0]
        names = ", ".join(f"`{it}`" for it in CARRIERS.get(crate, "").split())
        yield f"| [{crate}](../{root_file(crate)}) | {what} | {names} |"


def definition_at(file: str, text: str) -> str:
    """The name of the definition that a text stands in."""
    code = text_of(f"crates/{file_of_definition(file)}")
    behind = code[: code.index(text) + len(text)]
    names = re.findall(r"^(?:(?:abbrev|pub|record|data) )*(?!use\b|mod\b)(\w+)\b", behind, re.M)
    return names[-1] if names else ""


def wrong_versions() -> Iterator[tuple[str, str, str, list[str]]]:
    """The wrong definitions, each with the definition and the examples that break."""
    for path in sorted(glob.glob(f"{ROOT}/.ci/definitions/*.edit")):
        changes, others = edit_of(path)
        # (an import, or what is put before a comment, is no version of a definition)
        file, old, _ = next(it for it in changes if not it[1].startswith(("use ", "--")))
        topic = os.path.basename(file).removesuffix(".antt")
        broken = [it.split()[-1] for it in others.get("breaks", [])]
        yield topic, definition_at(file, old), os.path.basename(path), broken


def examples_table(_: str) -> Iterator[str]:
    """The wrong definitions, by the definition that each is a version of."""
    yield "| Definition | Wrong version: the examples that break |"
    yield "|---|---|"
    rows = {}
    for topic, name, edit, broken in wrong_versions():
        shown = ", ".join(f"`{it}`" for it in broken)
        link = f"[{edit.removesuffix('.edit')}](../.ci/definitions/{edit})"
        rows.setdefault((topic, name), []).append(f"{link}: {shown}")
    for (topic, name), versions in sorted(rows.items()):
        yield f"| `{topic}`: `{name}` | {'; '.join(versions)} |"


# the parts of documents that are made of their other text or of other files, each by the name that
# stands in the marks around it
PARTS = {
    "contents": contents,
    "commands": commands_list,
    "crates": crates_table,
    "examples": examples_table,
}
# the documents that begin with a list of their contents
WITH_CONTENTS = ("DECISIONS", "DEFINITIONS", "LINUX", "MAP", "REFERENCE", "SWAP")
MARKED = re.compile(r"(<!-- made: (\w+) -->\n).*?(<!-- end -->)", re.S)


def with_parts(text: str) -> str:
    """A document with its made parts as they should be."""
    return MARKED.sub(lambda it: it[1] + "\n".join(PARTS[it[2]](text)) + "\n" + it[3], text)


def without_parts(text: str) -> str:
    """What is written by hand in a document."""
    return MARKED.sub("", text)


def made_of(file: str) -> str:
    """A document as it should be."""
    return with_parts(text_of(file))


def help_texts() -> list[str]:
    """The texts of `--help`, and of `run`, `work` and `audit --help`, as the program's source has
    them.
    """
    source = text_of("crates/avsim/src/help.rt")
    found = re.findall(r'const (\w+): &str = "\\\n(.*?)";', source, re.S)
    texts = {name: text.replace('\\"', '"').replace("\\\\", "\\") for name, text in found}
    return [texts[it] for it in ("HELP", "RUN_HELP", "WORK_HELP", "AUDIT_HELP")]


def man_page() -> str:
    """The reference as a man page."""
    ran = subprocess.run([f"{ROOT}/.ci/man"], stdout=subprocess.PIPE, text=True, check=True)
    return ran.stdout


# each file that has something made in it, and what it should be
WITH_PARTS = [
    "README.md",
    *(f"docs/{it}.md" for it in ("PROVED", "EXAMPLES", *WITH_CONTENTS)),
]
FILES = {it: functools.partial(made_of, it) for it in WITH_PARTS} | {"docs/avsim.1": man_page}
