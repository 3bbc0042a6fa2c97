"""The desk in Chromium, on a phone, a tablet and a desktop: each page's whole way, also without scripts and without a
mouse, with Back and reload; what is downloaded is what the shown line writes."""

import contextlib
import json
import pathlib
import time

import harness
import packages
import report
import serving

WIDTHS = (360, 768, 1280)
NARROWEST = 320
SECONDS = 20
RESTING = 0.1
HERE = pathlib.Path(__file__).resolve().parent
AUDIT = (HERE / "audit.js").read_text()
FAILS_ONCE = "const asks = window.fetch; window.fetch = () => { window.fetch = asks; return Promise.reject(new TypeError()); }"
# The next answer of an address comes a second late.
LATE_ONCE = """const asks = window.fetch, [late] = arguments;
window.fetch = async (path, ...more) => {
  if (path !== late) return asks(path, ...more);
  window.fetch = asks;
  window.isAsked = true;
  const answer = await asks(path, ...more);
  await new Promise((done) => setTimeout(done, 1000));
  window.isLate = true;
  return answer;
}"""
PASTE = """const [field, text, event] = arguments;
field.value = text;
field.dispatchEvent(new Event(event, {bubbles: true}))"""
# A comment with a character that is two units of a browser's text.
PLAYING_CARD = "# \U0001f0a1 is an ace\n"
NOTRUMP = "balanced(north) and hcp(north) in 15-17 and every major (len(north,major)<5)"


def need():
    serving.need()
    packages.need("chromium", "chromium")
    packages.need("chromium-driver", "chromedriver")
    packages.need("python3-selenium", "/usr/lib/python3/dist-packages/selenium/__init__.py")


@contextlib.contextmanager
def browser(width, folder, has_scripts=True):
    """A browser with a window of this width, which downloads into the folder."""
    from selenium import webdriver
    from selenium.webdriver.chrome.service import Service

    options = webdriver.ChromeOptions()
    for word in ("--headless=new", "--no-sandbox", "--disable-gpu", "--disable-dev-shm-usage", f"--window-size={max(width, 500)},1000"):
        options.add_argument(word)
    settings = {"download.default_directory": str(folder), "download.prompt_for_download": False}
    if not has_scripts:
        settings["profile.managed_default_content_settings.javascript"] = 2
    options.add_experimental_option("prefs", settings)
    if width < 500:
        options.add_experimental_option("mobileEmulation", {"deviceMetrics": {"width": width, "height": 800, "pixelRatio": 1}})
    driver = webdriver.Chrome(options=options, service=Service("/usr/bin/chromedriver"))
    driver.implicitly_wait(5)
    try:
        yield Window(driver, pathlib.Path(folder), has_scripts)
    finally:
        driver.quit()


class Window:
    """A browser's window, and what a person does in it."""

    def __init__(self, driver, folder, has_scripts):
        self.driver = driver
        self.folder = folder
        self.has_scripts = has_scripts

    def go(self, address):
        self.driver.get(address)

    def find(self, css):
        return self.driver.find_element("css selector", css)

    def all(self, css):
        return self.driver.find_elements("css selector", css)

    def button(self, text):
        return self.driver.find_element("xpath", f"//button[normalize-space()='{text}']")

    def write(self, name, text):
        field = self.find(f"[name={name}]")
        field.clear()
        field.send_keys(text)

    def paste(self, name, text, event="input"):
        """Puts a text in at once, which may have characters that no key has."""
        self.driver.execute_script(PASTE, self.find(f"[name={name}]"), text, event)

    def choose(self, name, text):
        self.find(f"[name={name}]").find_element("xpath", f"option[.=\"{text}\"]").click()

    def press(self, text):
        """Clicks a button, as a person can: it has to be in sight, at rest, and nothing before it."""
        found = self.button(text)
        found.location_once_scrolled_into_view  # noqa: B018
        self.until(lambda: self.is_at_rest(found), f"{text} at rest")
        found.click()

    @staticmethod
    def is_at_rest(found):
        """Whether it stays in its place for a moment, which takes time while a page gets its parts."""
        before = found.rect
        time.sleep(RESTING)
        return found.rect == before

    def until(self, is_so, what="it"):
        end = time.monotonic() + SECONDS
        while time.monotonic() < end:
            with contextlib.suppress(Exception):
                if is_so():
                    return True
            time.sleep(0.1)
        raise AssertionError(f"{what} did not come")

    def downloaded(self, name):
        """A file that was downloaded, once it is whole."""
        file = self.folder / name
        self.until(lambda: file.exists() and not list(self.folder.glob("*.crdownload")), name)
        body = file.read_bytes()
        file.unlink()
        return body

    def frame_text(self):
        """What the frame of the page shows."""
        self.driver.switch_to.frame(self.find("iframe"))
        try:
            return self.find("body").text
        finally:
            self.driver.switch_to.default_content()

    @contextlib.contextmanager
    def other_tab(self):
        """The tab that opened just now, which is closed at the end."""
        self.until(lambda: len(self.driver.window_handles) == 2, "a tab")
        first, second = self.driver.window_handles
        self.driver.switch_to.window(second)
        try:
            yield
        finally:
            self.driver.close()
            self.driver.switch_to.window(first)

    def is_seen(self, css):
        return self.driver.execute_script("return document.querySelector(arguments[0]).checkVisibility()", css)

    def overflows(self):
        return self.driver.execute_script("return document.documentElement.scrollWidth > document.documentElement.clientWidth")

    def shown_lines(self):
        return self.driver.execute_script("return [...document.querySelectorAll('pre code')].map((code) => code.textContent)")


def fits(window, name):
    """The page fits its window, and everything on it has a label and enough contrast."""
    yield f"{name}: fits", not window.overflows()
    for fault in window.driver.execute_script(AUDIT):
        yield f"{name}: {fault}", False


def tonight(window, desk):
    window.go(desk.address)
    seed = window.find("[name=seed]").get_attribute("value")
    yield "a seed is drawn", seed.isdigit()
    yield from fits(window, "tonight")
    window.find(".seed summary").click()
    yield "the seed is hidden by a click", not window.is_seen("[name=seed]")
    window.write("event", "Monday pairs")
    window.press("PBN")
    given = window.downloaded("night.pbn")
    line = desk.post("/tonight/lines", {"seed": seed, "boards": "27", "event": "Monday pairs"}).text
    yield "PBN is what its line writes", given == serving.typed(json.loads(line)["pbn"]) != b""
    yield "the seed is in no address", seed not in window.driver.current_url
    window.driver.refresh()
    yield "a reload keeps the night", window.find("[name=seed]").get_attribute("value") == seed
    yield "and its words", window.find("[name=event]").get_attribute("value") == "Monday pairs"
    window.find("[name=site]").send_keys("Riverside\n")
    window.until(lambda: "Riverside" in window.driver.page_source, "the same page")
    yield "the return key draws no seed", window.find("[name=seed]").get_attribute("value") == seed
    window.write("boards", "0")
    window.press("PBN")
    yield "a fault is at its field", window.find("#boards-refusal").is_displayed()
    window.write("boards", "4")
    window.press("More boards")
    window.until(lambda: window.find("[name=first_board]").get_attribute("value") == "5", "more boards")
    yield "more boards have another seed", window.find("[name=seed]").get_attribute("value") != seed
    window.driver.back()
    window.driver.forward()
    yield "Back keeps the night", window.find("[name=first_board]").get_attribute("value") == "5"


def sheet(window, desk):
    window.go(desk.address)
    window.write("boards", "4")
    window.press("Sheet with tricks")
    with window.other_tab():
        window.until(lambda: "Par" in window.find("body").text, "the sheet")
        yield "a sheet with par", len(window.all("section.board")) == 4


def lesson(window, desk):
    window.go(f"{desk.address}/lesson")
    yield from fits(window, "lesson")
    window.find(".starts summary").click()
    window.find(".starts details summary").click()
    window.find(".starts a").click()
    window.until(lambda: window.find("[name=where]").get_attribute("value") == NOTRUMP, "the lesson")
    window.press("Deal")
    window.until(lambda: "Board 12" in window.frame_text(), "the boards")
    yield from fits(window, "a lesson's boards")
    yield "its line", window.shown_lines() == [f"deals make --seed=7 --boards=12 '--where={NOTRUMP}' --rotate --format=html"]
    window.press("PBN")
    yield "PBN", window.downloaded("lesson.pbn") == serving.typed(window.shown_lines()[0].replace("html", "pbn")) != b""
    address = window.driver.current_url
    window.driver.refresh()
    window.until(lambda: "Board 12" in window.frame_text(), "the boards again")
    yield "its address has all", "where=" in address and window.driver.current_url == address


def handout(window, desk):
    """A handout comes in a tab of its own, with the dealer's hand alone."""
    window.go(f"{desk.address}/lesson?where=hcp(north)>%3D20&boards=2&seed=7")
    window.press("Handout")
    with window.other_tab():
        window.until(lambda: "Board 2" in window.find("body").text, "the handout")
        yield "a handout has a hand a board", len(window.all("section.board")) == 2 == window.find("body").text.count("\u2660")
        yield from fits(window, "a handout")


def one_hand(window, desk):
    """The page shows the hands that were chosen, without points, and prints by its button."""
    window.go(f"{desk.address}/lesson?boards=2&seed=7")
    window.driver.find_element("xpath", "//summary[.='What the page shows']").click()
    window.choose("show", "South's")
    window.choose("points", "hidden")
    window.press("Deal")
    window.until(lambda: "Board 2" in window.frame_text(), "the boards")
    yield "one hand a board", window.frame_text().count("\u2660") == 2
    yield "its line says so", "--show=south --points=hide --format=html" in window.shown_lines()[0]
    yield "the choice stays", window.find("[name=show]").get_attribute("value") == "south"
    yield from fits(window, "a page of one hand")
    yield "a button prints where scripts run", window.find(".print").is_displayed() == window.has_scripts
    if window.has_scripts:
        window.driver.execute_script(
            "document.querySelector('#result iframe').contentWindow.print = () => { window.printed = true; }"
        )
        window.press("Print")
        yield "the boards are printed", window.driver.execute_script("return window.printed") is True


def two_tabs(window, desk):
    """What another tab does with the night changes nothing in this one."""
    window.go(desk.address)
    seed = window.find("[name=seed]").get_attribute("value")
    window.press("PBN")
    before = window.downloaded("night.pbn")
    first = window.driver.current_window_handle
    window.driver.switch_to.new_window("tab")
    window.go(desk.address)
    yield "tabs: the same night", window.find("[name=seed]").get_attribute("value") == seed
    window.write("event", "Second tab")
    window.press("More boards")
    window.until(lambda: window.find("[name=seed]").get_attribute("value") != seed, "another seed")
    window.press("PBN")
    yield "tabs: more boards", b"Second tab" in window.downloaded("night.pbn")
    window.driver.close()
    window.driver.switch_to.window(first)
    window.press("PBN")
    yield "tabs: the first's boards", window.downloaded("night.pbn") == before != b""


def linked(window, desk):
    """A link on a page of another site leads to the night that there is."""
    window.go(desk.address)
    seed = window.find("[name=seed]").get_attribute("value")
    window.go(f"data:text/html,<a href='{desk.address}'>tonight</a>")
    window.find("a").click()
    window.until(lambda: window.find("h1").text == "Boards for tonight", "the page")
    yield "a link keeps the night", window.find("[name=seed]").get_attribute("value") == seed


def mistake(window, desk):
    window.go(f"{desk.address}/lesson")
    window.write("where", "hcp(nord) in 15-17")
    window.until(lambda: window.find(".refusal .mend").is_displayed(), "the refusal")
    yield from fits(window, "a mistake")
    yield "the fault is marked", window.find(".marks mark").get_attribute("textContent") == "nord"
    window.find(".refusal .mend").click()
    yield "it is mended", window.find("[name=where]").get_attribute("value") == "hcp(north) in 15-17"
    window.until(lambda: "One deal in" in window.find("[data-rarity]").text, "how rare they are")
    yield "nothing is refused", not window.all(".refusal")
    window.write("where", "  hcp(west)>=9 and hcp(nord)>=9")
    window.until(lambda: window.find(".refusal .mend").is_displayed(), "the refusal after blanks")
    yield "a fault after blanks is marked", window.find(".marks mark").get_attribute("textContent") == "nord"
    window.write("where", "hcp(north)>=20 and hcp(south)>=9 or hcp(east)>=20")
    window.until(lambda: "and" in window.find(".note").text, "the note")
    yield "a slip is noted", not window.all(".refusal")
    window.write("where", "hcp(n,s)>=20")
    window.until(lambda: window.find(".refusal .help").is_displayed(), "the hint")
    hint = window.find(".refusal .help")
    yield "a hint breaks its lines", hint.get_property("scrollWidth") <= hint.get_property("clientWidth")
    window.write("where", "len(north,")
    window.until(lambda: window.find(".chip").is_displayed(), "what could be there")
    window.find(".chip").click()
    yield "a word is put in", window.find("[name=where]").get_attribute("value").startswith("len(north,")


def playing_card(window, desk):
    """A fault after a character of two units is marked at its place, and a word is put in there."""
    window.go(f"{desk.address}/lesson")
    window.paste("where", f"{PLAYING_CARD}hcp(nord)>=15")
    window.until(lambda: window.find(".refusal .mend").is_displayed(), "the refusal")
    marked = window.find(".marks mark").get_attribute("textContent")
    yield "a fault after a playing card", marked == "nord"
    window.paste("where", f"{PLAYING_CARD}len(north,")
    window.until(lambda: window.button("spades").is_displayed(), "what could be there")
    window.button("spades").click()
    text = window.find("[name=where]").get_attribute("value")
    yield "a word after a playing card", text == f"{PLAYING_CARD}len(north,spades"


def late(window, desk):
    """An answer that comes late changes nothing of what a later text has brought."""
    def has(name):
        return window.driver.execute_script("return window[arguments[0]] === true", name)

    window.go(f"{desk.address}/lesson")
    window.driver.execute_script(LATE_ONCE, "/rarity")
    window.paste("where", "hcp(north)>=20")
    window.until(lambda: has("isAsked"), "how rare they are is asked")
    window.paste("where", "hcp(nord)>=20")
    window.until(lambda: has("isLate"), "how rare the hands were")
    time.sleep(RESTING)
    yield "late: nothing is told of a faulty text", not window.find("[data-rarity]").is_displayed()
    window.go(desk.address)
    window.driver.execute_script(LATE_ONCE, "/tonight/lines")
    for event in ("First", "Second"):
        window.paste("event", event, "change")
    window.until(lambda: has("isLate"), "the lines")
    time.sleep(RESTING)
    yield "late: the lines are the last ones", "--event=Second" in window.shown_lines()[0]


def back(window, desk):
    """A wrong text that Back brings again is marked again, and one that was mended is not."""
    window.go(f"{desk.address}/lesson")
    for text, is_wrong in (("hcp(nord)>=15", True), ("hcp(north)>=20", False)):
        window.write("where", text)
        window.write("boards", "1")
        window.press("Deal")
        window.until(lambda: "boards=1" in window.driver.current_url, "the answer")
        window.until(lambda is_wrong=is_wrong: bool(window.all(".refusal" if is_wrong else "iframe")), "the refusal or the boards")
        window.driver.back()
        window.until(lambda text=text: window.find("[name=where]").get_attribute("value") == text, "what was typed")
        if is_wrong:
            window.until(lambda: window.find(".refusal .mend").is_displayed(), "the refusal after Back")
            yield "Back: the fault is marked", window.find(".marks mark").get_attribute("textContent") == "nord"
        else:
            window.driver.implicitly_wait(0)
            window.until(lambda: not window.all(".refusal"), "no refusal after Back")
            window.driver.implicitly_wait(5)
            yield "Back: nothing is marked", not window.find(".marks").get_attribute("textContent")


def hands(window, desk):
    window.go(f"{desk.address}/lesson")
    window.driver.find_element("xpath", "//summary[.='Cards that a seat has']").click()
    window.write("south", "AQ742.K5.KJ3.84")
    window.write("boards", "2")
    window.press("Deal")
    window.until(lambda: "AQ742" in window.frame_text(), "the hand")
    yield "the hand that was given", "Board 2" in window.frame_text()
    window.write("south", "AQ742.K5.KJ3.8422")
    window.press("Deal")
    yield "a hand that is refused", window.find("#south-refusal").is_displayed()
    yield from fits(window, "a hand that is refused")


def counted(window, desk):
    window.go(f"{desk.address}/count")
    yield from fits(window, "count")
    window.write("of", "hcp(north)")
    window.write("by", "len(north,spades)")
    window.write("candidates", "1000")
    window.press("Count")
    window.until(lambda: "1,000" in window.frame_text(), "the table")
    yield from fits(window, "a table")


def searched(window, desk):
    window.go(f"{desk.address}/search")
    yield from fits(window, "search")
    window.write("where", "hcp(north)>=31")
    window.write("boards", "1000")
    window.press("Search")
    window.until(lambda: int(window.find("[data-found]").text) > 0, "a board")
    window.until(lambda: "%" in window.find("[data-progress]").text, "the progress")
    yield from fits(window, "a search")
    window.driver.execute_script(FAILS_ONCE)
    shown = window.find("[data-progress]").text
    window.until(lambda: window.find("[data-progress]").text != shown, "progress after a request that failed")
    window.press("Stop")
    window.until(lambda: "Stopped" in window.find("[role=status]").text, "the end")
    window.until(lambda: "Board 1" in window.frame_text(), "the boards")
    window.driver.find_element("link text", "Go on from here").click()
    yield "it goes on", int(window.find("[name=first]").get_attribute("value")) > 0
    yield "with the same condition", window.find("[name=where]").get_attribute("value") == "hcp(north)>=31"


def contracts(window, desk):
    window.go(f"{desk.address}/lesson?where=len(south,spades)>%3D5&boards=2")
    window.driver.find_element("xpath", "//summary[.='Contracts that make']").click()
    window.write("makes", "4S-NS")
    window.write("beaten", "3NT-NS")
    window.press("Deal")
    window.until(lambda: "Board 2" in window.frame_text(), "the boards")
    yield "its line", "deals-tricks --makes=4S-NS --beaten=3NT-NS" in window.shown_lines()[0]


def pressed_by_keys(window, text):
    """Goes from field to field by the tab key up to a button, and presses it by the return key. Whether it was there."""
    from selenium.webdriver.common.keys import Keys

    for _ in range(80):
        window.driver.switch_to.active_element.send_keys(Keys.TAB)
        focused = window.driver.switch_to.active_element
        if focused.tag_name == "button" and focused.text == text:
            focused.send_keys(Keys.ENTER)
            return True
    return False


def by_keyboard(window, desk):
    """Each page from its top to its result by keys alone."""
    window.go(desk.address)
    yield "keys: the night's file", pressed_by_keys(window, "PBN") and b"[Deal " in window.downloaded("night.pbn")
    window.go(f"{desk.address}/lesson?where=hcp(north)>%3D20&boards=1")
    yield "keys: deal", pressed_by_keys(window, "Deal")
    window.until(lambda: "Board 1" in window.frame_text(), "the board")
    window.go(f"{desk.address}/count?of=hcp(north)")
    yield "keys: count", pressed_by_keys(window, "Count")
    window.until(lambda: "hcp(north)" in window.frame_text(), "the table")
    window.go(f"{desk.address}/search?where=hcp(north)>%3D35")
    yield "keys: search", pressed_by_keys(window, "Search")
    window.until(lambda: window.button("Stop"), "the search")
    yield "keys: stop", pressed_by_keys(window, "Stop")
    window.until(lambda: "Stopped" in window.find("[role=status]").text, "the end")


WAYS = (
    tonight, sheet, lesson, handout, one_hand, two_tabs, linked, mistake, playing_card, late, back,
    hands, counted, searched, contracts, by_keyboard,
)


# The ways that need no scripts; a mistake is told without them too, when the form is sent.
PLAIN = (tonight, sheet, lesson, handout, one_hand, two_tabs, hands, counted, searched, contracts, by_keyboard)


def dark(window, desk):
    """Each page fits the narrowest window, and can be read with dark colours."""
    window.driver.execute_cdp_cmd(
        "Emulation.setEmulatedMedia", {"features": [{"name": "prefers-color-scheme", "value": "dark"}]}
    )
    long = f"/lesson?boards=1&seed={300 * '9'}"
    for path in ("/", "/lesson?where=hcp(nord)>3&boards=1&seed=7", long, "/count?of=hcp(north)", "/search?where=hcp(north)>30", "/help"):
        window.go(desk.address + path)
        yield from fits(window, f"dark, {path}")


def plain_mistake(window, desk):
    """Without scripts a mistake is told at its field when the form is sent."""
    window.go(f"{desk.address}/lesson")
    window.write("where", "hcp(nord)>=15")
    time.sleep(1)
    window.driver.implicitly_wait(0)
    yield "scripts are off", not window.all(".refusal")
    window.driver.implicitly_wait(5)
    window.press("Deal")
    yield "a refusal", "nord" in window.find("#where-refusal").text
    yield from fits(window, "a refusal")
    window.write("where", "hcp(north)>=15")
    window.press("Deal")
    window.until(lambda: "Board 12" in window.frame_text(), "the boards")


def faults_in_frames(window, desk):
    """A run that is refused or takes too long says so in its frame, and leads to a long search."""
    for path, said in (
        ("/lesson?show=foo&boards=2&seed=7", "Mend the field «Hands on the page»"),
        ("/lesson?boards=12&seed=7&where=hcp(north)>%3D34", "This takes longer than a page can wait"),
        ("/count?candidates=10000000000&seed=7&where=hcp(north)>%3D20", "for the page Long search"),
    ):
        window.go(desk.address + path)
        window.until(lambda said=said: said in window.frame_text(), said)
        yield f"{path}: short in its frame", "Tonight" not in window.frame_text()
        yield from fits(window, path)
    window.driver.switch_to.frame(window.find("iframe"))
    window.driver.find_element("link text", "Long search with this condition").click()
    window.driver.switch_to.default_content()
    window.until(lambda: window.find("h1").text == "A search for rare hands", "the long search")
    yield "its condition", window.find("[name=where]").get_attribute("value") == "hcp(north)>=20"


def gone(ways_to_go, width, desk, has_scripts=True):
    """Ways in a window of this width. What didn't come is told, and the next way tried."""
    plain = "" if has_scripts else ", no scripts"
    with harness.scratch() as folder, browser(width, folder, has_scripts) as window:
        for way in ways_to_go:
            try:
                for name, is_right in way(window, desk):
                    yield f"{width}{plain}: {name}", is_right
            except Exception as error:
                yield f"{width}{plain}: {way.__name__}: {str(error).splitlines()[0]}", False


def ways():
    need()
    with serving.desk() as desk:
        for width in WIDTHS:
            yield from report.judged(gone(WAYS, width, desk))
        yield from report.judged(gone([dark], NARROWEST, desk))
        yield from report.judged(gone([*PLAIN, plain_mistake], 1280, desk, has_scripts=False))
    with serving.desk("--limits") as desk:
        for width in (WIDTHS[0], WIDTHS[-1]):
            yield from report.judged(gone([faults_in_frames], width, desk))
