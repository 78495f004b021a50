"""Run inside KLayout with a window: opens a layout, compares it with an older one by the menu's own call, and leaves the marker browser
open with the first marker chosen. It ends by itself. The environment names the programs and a folder with new.oas and old.oas."""

import os

import pya

import oascanon_menu

FOLDER = os.environ["FOLDER"]
application = pya.Application.instance()
window = application.main_window()
# No tip covers the picture, and new cells show all that is below them.
for key, value in (("tip-window-hidden", "only-top-level-shown-by-default=3,editor-mode=4"), ("full-hierarchy-new-cell", "true")):
    application.set_config(key, value)
window.resize(1180, 960)
view = window.load_layout(os.path.join(FOLDER, "new.oas"), 1).view()
view.max_hier()
view.zoom_fit()
oascanon_menu.install()
has_menu = window.menu().is_menu("tools_menu.oascanon")
with open(os.path.join(FOLDER, "menu"), "w") as file:
    file.write("there" if has_menu else "not there")
oascanon_menu.compare_views(view, view.active_cellview(), os.path.join(FOLDER, "old.oas"))


def place():
    """Puts the marker browser where the picture's script looks for it."""
    for window in pya.QApplication.topLevelWidgets():
        if "Marker" in window.windowTitle:
            window.move(20, 600)
            window.resize(960, 390)


timers = []
for delay, call in ((1500, place), (25000, lambda: application.exit(0))):
    timer = pya.QTimer()
    timer.singleShot = True
    timer.timeout = call
    timer.start(delay)
    timers.append(timer)
