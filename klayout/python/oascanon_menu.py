"""The menu below Tools. Each item asks for what it needs, calls oascanon_klayout, and shows what was found in a dialog."""

import os
import tempfile

import pya

import oascanon_klayout as work

FILES = "OASIS files (*.oas *.oasis);;Layout files (*.oas *.gds *.gz);;All files (*)"
MENU = "tools_menu.oascanon"
# KLayout calls actions as long as they are held.
_held = []


def shown(title, text):
    pya.MessageBox.info(title, text, pya.MessageBox.Ok)


def warned(text):
    pya.MessageBox.warning("oascanon", text, pya.MessageBox.Ok)


def with_left_out(text, answer):
    return f"{text}\n\n{answer.left_out} (a key doesn't stand for these)" if answer.left_out else text


def open_layout():
    """The layout of the current view. Raises Failed where there is none."""
    view = pya.Application.instance().main_window().current_view()
    cell_view = view.active_cellview() if view else None
    if cell_view is None or not cell_view.is_valid():
        raise work.Failed("No layout is open.")
    return view, cell_view


def show_key():
    _, cell_view = open_layout()
    answer = work.key(cell_view.layout())
    shown("Key of the layout", with_left_out(answer.found, answer))


def check_file():
    path = pya.FileDialog.ask_open_file_name("Is this file canonical?", "", FILES)
    if path:
        answer = work.is_canonical(path)
        shown("Canonical?", f"{path} is {'canonical' if answer.found else 'not canonical'}.")


def compare_with():
    view, cell_view = open_layout()
    other = pya.FileDialog.ask_open_file_name("Compare the open layout with", "", FILES)
    if other:
        compare_views(view, cell_view, other)


def compare_views(view, cell_view, other):
    """Shows the markers of what differs in the marker browser."""
    with tempfile.TemporaryDirectory() as folder:
        markers = os.path.join(folder, "difference.lyrdb")
        answer = work.compare(cell_view.layout(), other, markers)
        if not answer.found:
            shown("Compare", with_left_out("Both mean the same layout.", answer))
            return
        index = view.create_rdb(f"oascanon: {os.path.basename(other)}")
        view.rdb(index).load(markers)
        view.show_rdb(index, cell_view.index())
        if answer.left_out:
            shown("Compare", answer.left_out)


def save_canonical():
    _, cell_view = open_layout()
    path = pya.FileDialog.ask_save_file_name("Save as the canonical file", "", FILES)
    if path:
        answer = work.save(cell_view.layout(), path)
        shown("Saved", with_left_out(answer.found, answer))


ITEMS = [
    ("key", "Key of the Layout", show_key),
    ("check", "Is This File Canonical?..", check_file),
    ("compare", "Compare With..", compare_with),
    ("save", "Save as the Canonical File..", save_canonical),
]


def guarded(call):
    """The call, with what fails in it shown in a dialog."""

    def run():
        try:
            call()
        except Exception as fault:
            warned(str(fault))

    return run


def install():
    """Adds the menu, once."""
    window = pya.Application.instance().main_window()
    if window is None or _held:
        return
    menu = window.menu()
    menu.insert_menu("tools_menu.end", "oascanon", "Canonical OASIS")
    for name, title, call in ITEMS:
        action = pya.Action()
        action.title = title
        action.on_triggered = guarded(call)
        menu.insert_item(f"{MENU}.end", name, action)
        _held.append(action)
