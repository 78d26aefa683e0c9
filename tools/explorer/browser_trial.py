"""The page of `tools/explore` in a Chromium without a window, driven as a person would: trials of `tools/try-explorer`."""
import base64, os, re, subprocess, sys, time, xml.etree.ElementTree, zlib

from selenium import webdriver
from selenium.webdriver.chrome.options import Options
from selenium.webdriver.chrome.service import Service
from selenium.webdriver.common.action_chains import ActionChains
from selenium.webdriver.common.by import By
from selenium.webdriver.common.keys import Keys
from selenium.webdriver.support.ui import Select

from hostile_trial import KERNEL, ROOT, endless_kernel, need

WIDE, NARROW = (1024, 900), (400, 900)
TABS = ('plan', 'kernel', 'program', 'c', 'assembly')
with open(os.path.join(os.path.dirname(os.path.abspath(__file__)), 'looks.js'), encoding='utf-8') as file:
    LOOKS = file.read()


def packed(text):
    """A text as the address of the page has it."""
    made = zlib.compressobj(wbits=-15)
    return base64.urlsafe_b64encode(made.compress(text.encode()) + made.flush()).decode().rstrip('=')


class Page:
    """The page, and what the program itself writes, to compare with."""

    def __init__(self, server, binary, patience, pictures):
        self.server, self.binary, self.patience, self.pictures = server, binary, patience, pictures
        self.saved = os.path.join(pictures, 'saved')
        os.makedirs(self.saved, exist_ok=True)
        options = Options()
        for word in ('headless=new', 'no-sandbox', 'disable-gpu', 'disable-dev-shm-usage', 'hide-scrollbars', 'force-color-profile=srgb'):
            options.add_argument('--' + word)
        options.set_capability('goog:loggingPrefs', {'browser': 'ALL'})
        self.driver = webdriver.Chrome(service=Service('/usr/bin/chromedriver'), options=options)
        self.driver.set_page_load_timeout(20 * patience)
        self.driver.set_script_timeout(6 * patience)
        self.driver.execute_cdp_cmd('Browser.setDownloadBehavior', {'behavior': 'allow', 'downloadPath': self.saved})
        self.size(*WIDE)
        self.driver.get(server.address + '&language=kernel&library=sse&tab=plan&text=' + packed(KERNEL))
        self.wait_done()

    def close(self):
        self.driver.quit()

    # Looking and acting

    def size(self, width, height):
        """The size of the page itself, whatever a window may have."""
        self.driver.execute_cdp_cmd('Emulation.setDeviceMetricsOverride',
                                    {'width': width, 'height': height, 'deviceScaleFactor': 1, 'mobile': False})

    def scheme(self, name):
        self.driver.execute_cdp_cmd('Emulation.setEmulatedMedia', {'features': [{'name': 'prefers-color-scheme', 'value': name}]})

    def one(self, selector):
        return self.driver.find_element(By.CSS_SELECTOR, selector)

    def all(self, selector):
        return self.driver.find_elements(By.CSS_SELECTOR, selector)

    def js(self, text, *given):
        return self.driver.execute_script(text, *given)

    def look(self, call, *given):
        """What a function of looks.js tells."""
        return self.js(f'{LOOKS}\nreturn {call}(...arguments);', *given)

    def wait(self, what, act, seconds=None):
        end = time.monotonic() + (seconds or 6 * self.patience)
        while not (found := act()):
            need(time.monotonic() < end, f'{what} did not come: {self.status()}')
            time.sleep(0.5)
        return found

    def status(self):
        return self.one('#status').text

    def wait_done(self):
        """Waits until nothing runs, and nothing is about to."""
        self.driver.execute_async_script(f'{LOOKS}\nreturn finished(arguments[0]);')

    def wait_run(self, act):
        """Does something that begins a run, and waits for its end."""
        self.js("document.getElementById('status').textContent = 'Changed.'")
        act()
        self.wait_done()
        self.no_message()

    def no_message(self):
        found = self.driver.get_log('browser')
        need(not found, f'a message on the console: {found[:1]}')

    def choose(self, name):
        """Chooses an example; one that is chosen already is run again."""
        select = Select(self.one('#example'))
        if select.first_selected_option.text == name:
            self.wait_run(self.one('#run').click)
        else:
            self.wait_run(lambda: select.select_by_visible_text(name))

    def examples(self):
        return [option.get_attribute('textContent') for option in self.all('#example optgroup option')]

    def tab(self, name):
        self.js("document.getElementById('tab-' + arguments[0]).click()", name)

    def text(self, name):
        """The text of a panel, whether it is seen or not."""
        return self.look('panel', name)

    def typed(self, text):
        """Puts a text into the editor as a person pastes it."""
        self.look('paste', text)

    def picture(self, name):
        self.driver.save_screenshot(os.path.join(self.pictures, name + '.png'))

    def faults(self):
        return [one.text for one in self.all('#faults > *')]

    def told(self, front):
        """A fault is told that begins so."""
        need(any(fault.startswith(front) for fault in self.faults()), f'{front!r} is not told: {self.faults()}')

    def vegen(self, *words, kernel=None):
        path = os.path.join(self.pictures, 'compared.kernel')
        with open(path, 'w', encoding='utf-8') as file:
            file.write(kernel if kernel is not None else self.text('kernel'))
        library = os.path.join(ROOT, 'library', self.js("return document.getElementById('library').value"))
        ended = subprocess.run([self.binary, words[0], library, path, *words[1:]], capture_output=True, text=True)
        need(ended.returncode == 0, f'vegen {words}: {ended.stderr}')
        return ended.stdout

    # Trials

    def agrees(self, *options):
        """The program is that of the program `vegen`, and the picture has a band for each pack of `explain`."""
        need(self.text('program') == self.vegen('compile', *options), 'the program is another one')
        plain = [word for word in options if word != '--guard']
        kernel = self.text('kernel')
        if '--guard' in options:
            kernel = re.sub(r'(\w+): (?:noalias )?ptr', r'\1: noalias ptr', kernel)
        told = self.vegen('explain', *plain, kernel=kernel)
        packs, bands = told.count('pack '), len(self.all('#picture .pack'))
        need(packs == bands, f'{bands} bands for {packs} packs')
        self.agrees_lanes(told)
        cost = re.search(r'plan cost (\d+) plain (\d+) scalar (\d+)', told).groups()
        shown = [one.get_attribute('textContent') for one in self.all('#costs .number')]
        need(shown == list(cost), f'costs {shown} for {cost}')
        return packs

    def agrees_lanes(self, told):
        """As many lanes of an instruction have a value of the kernel as `explain` says."""
        wanted, found = {}, {}
        for name, count in re.findall(r'^pack call (.*) lanes (\d+)$', told, re.M):
            wanted[name] = wanted.get(name, 0) + int(count)
        for name, count in self.look('calls'):
            name = name.rpartition(' · ')[0]
            found[name] = found.get(name, 0) + count
        need(wanted == found, f'lanes {found} for {wanted}')

    def try_example(self, name):
        self.choose(name)
        if self.faults():
            need(name.endswith('.c'), f'refused: {self.faults()}')
            need(any(re.match(r'\d+:\d+: ', fault) for fault in self.faults()), f'a fault without a place: {self.faults()}')
            return f'no kernel, {self.faults()[0][:90]}'
        packs = self.agrees()
        self.tab('assembly')
        counts = [one.text for one in self.all('#counts td')]
        need(counts and all(re.fullmatch(r'\d+', one) for one in counts), f'counts of instructions {counts}')
        need(self.all('#stories > li'), 'no rows')
        self.tab('plan')
        self.picture('example-' + name)
        return f'{packs} packs, instructions {" ".join(counts)}'

    def try_options(self):
        self.choose('mixed_rows.kernel')
        self.wait_run(lambda: self.one('#more').click())
        self.agrees('--more')
        self.wait_run(lambda: self.one('#guard').click())
        need(self.text('program').startswith('guarded '), 'no guarded text')
        self.agrees('--more', '--guard')
        self.wait_run(lambda: self.one('#more').click())
        self.wait_run(lambda: self.one('#guard').click())
        self.wait_run(lambda: Select(self.one('#library')).select_by_visible_text('avx2'))
        self.agrees()
        self.wait_run(lambda: self.one('#width').send_keys('4' + Keys.TAB))
        self.agrees('--width', '4')
        self.one('#extensions summary').click()
        self.wait_run(lambda: self.one('#extensions input[value=SSE2]').click())
        self.agrees('--width', '4', '--with', 'SSE2')
        self.wait_run(lambda: self.one('#width').send_keys(Keys.BACKSPACE + 'x' + Keys.TAB))
        need(any('no number from 1 to 4096' in fault for fault in self.faults()), 'a wrong width is not told')
        self.wait_run(lambda: self.one('#width').send_keys(Keys.BACKSPACE + Keys.TAB))
        self.wait_run(lambda: self.one('#extensions input[value=SSE2]').click())
        self.agrees()
        self.one('#extensions summary').click()
        self.wait_run(lambda: Select(self.one('#library')).select_by_visible_text('avx512'))
        self.choose('copy_loop.kernel')
        need(self.text('program').startswith('looped '), 'no looped text')
        self.agrees()

    def try_fault(self):
        self.wait_run(lambda: self.typed('kernel mine(p: ptr) {\n  x = -129i8;\n}\n'))
        self.told('2:7: kernel refused: 6 LiteralRange: a literal lies outside')
        need(self.look('faulty') == ['2', '-', 7], f'marked at {self.look("faulty")}')
        self.one('#faults button').click()
        caret = self.js("return document.querySelector('#editor textarea').selectionStart")
        need(caret == len('kernel mine(p: ptr) {\n') + 6, f'the cursor stands at {caret}')
        self.picture('fault')
        self.wait_run(lambda: self.typed('kernel mine(p: ptr) {\n  store8(p + 0, 1i8)'))
        need(self.faults() and self.all('#editor .fault-end'), f'the end of the text is not marked: {self.faults()}')
        self.wait_run(lambda: self.typed('void f(float *d)\n{\n    d[0] = 2 * d[1];\n}\n'))
        self.wait_run(self.one('input[value=c]').click)
        self.told('3:1: from-c: f: floating point')
        self.wait_run(lambda: self.typed('void f(int *d)\n{\n    d[0] = ;\n}\n'))
        self.told('3:12: ')
        self.wait_run(lambda: self.typed('#include <stdint.h>\n#include "/etc/passwd"\nvoid f(int *d) { d[0] = 1; }\n'))
        self.told('2:1: #include of an absolute path is refused')
        self.wait_run(self.one('input[value=kernel]').click)

    def try_link(self):
        self.choose('mixed_rows.kernel')
        self.wait_run(lambda: self.one('#more').click())
        text = self.js("return document.querySelector('#editor textarea').value")
        self.wait_run(lambda: self.typed(text + '// one line more\n'))
        self.tab('program')
        self.wait('the tab in the link', lambda: 'tab=program' in self.driver.current_url)
        before = self.whole()
        link = self.driver.current_url
        need('token' not in link, 'the link has the token')
        self.driver.switch_to.new_window('tab')
        self.size(*WIDE)
        self.driver.get(link)
        self.wait_done()
        after = self.whole()
        need(before == after, f'the link gives another {[name for name in before if before[name] != after[name]]}')
        self.tab('plan')
        self.wait('the picture', lambda: f'{len(self.all("#picture .pack"))} packs' == before['packs'].split(',')[0])
        self.no_message()
        self.driver.close()
        self.driver.switch_to.window(self.driver.window_handles[0])
        self.wait_run(lambda: self.one('#more').click())
        self.tab('plan')

    def whole(self):
        return {'state': self.look('whole'), 'tab': self.one('[aria-selected=true]').text,
                'texts': [self.text(name) for name in ('kernel', 'program', 'c')], 'rows': self.one('#stories').get_attribute('textContent'),
                'packs': self.one('#panel-plan .quiet').get_attribute('textContent')}

    def try_stop(self):
        Select(self.one('#library')).select_by_visible_text('avx512')
        self.one('#width').send_keys('4096')
        self.one('#more').click()
        self.typed(endless_kernel())
        self.wait('a search that goes on', lambda: re.search(r'It goes on: .*search \d+ s', self.status()))
        need(self.server.left(), 'the run has no folder')
        self.picture('goes-on')
        ActionChains(self.driver).send_keys(Keys.ESCAPE).perform()
        need(self.status().startswith('Stopped after'), f'not stopped: {self.status()}')
        need(not self.one('#stop').is_enabled(), 'what is stopped may be stopped')
        self.wait('the end of what ran', lambda: not self.server.left(), 60)
        self.js("document.getElementById('width').value = ''; document.getElementById('more').checked = false")
        self.wait_run(lambda: Select(self.one('#library')).select_by_visible_text('avx2'))
        self.no_message()

    def press(self, *keys):
        for key in keys:
            ActionChains(self.driver).send_keys(key).perform()

    def focused(self):
        """What has the focus, and whether it is seen to have it."""
        return self.look('focus')

    def to(self, wanted, most=60):
        """Presses Tab until something has the focus."""
        for _ in range(most):
            self.press(Keys.TAB)
            name, seen = self.focused()
            need(seen or name == 'BODY', f'the focus on {name} is not seen')
            if name == wanted:
                return
        raise AssertionError(f'{wanted} is not reached by Tab')

    def try_keyboard(self):
        """Without a mouse: an example chosen, an option, a fault typed, tabs, the picture, a row."""
        self.choose('three_bytes.kernel')
        self.tab('plan')
        self.js('document.activeElement.blur(); scrollTo(0, 0)')
        self.to('example')
        self.wait_run(lambda: self.press('wide'))
        need('wide' in self.text('kernel'), 'the example is not chosen by letters')
        self.to('TEXTAREA')
        self.js('document.activeElement.setSelectionRange(1e6, 1e6)')
        self.wait_run(lambda: self.press('x'))
        need(self.faults(), 'a fault typed is not told')
        self.wait_run(lambda: self.press(Keys.BACKSPACE))
        need(not self.faults(), f'{self.faults()}')
        self.to('more')
        self.wait_run(lambda: self.press(Keys.SPACE))
        self.to('tab-plan')
        for name in (*TABS[1:], TABS[0]):
            self.press(Keys.ARROW_RIGHT)
            need(self.focused()[0] == 'tab-' + name and self.one(f'#panel-{name}').is_displayed(), f'no tab {name} by arrows')
        self.to('picture')
        told = self.one('#told').text
        self.press(Keys.ARROW_DOWN, Keys.ARROW_RIGHT)
        need(self.one('#told').text != told and 'cost' in self.one('#told').text, 'nothing is told by arrows')
        self.press(Keys.ENTER)
        need(self.all('#editor .line.marked'), 'Enter marks no line')
        self.press(Keys.END, Keys.HOME, Keys.ARROW_LEFT, Keys.ARROW_UP)
        self.js("document.querySelector('#stories button').focus()")
        self.press(Keys.ENTER)
        need(self.all('#stories > li.marked') and self.all('#editor .line.marked'), 'a row marks no line')
        self.wait_run(lambda: ActionChains(self.driver).key_down(Keys.CONTROL).send_keys(Keys.ENTER).key_up(Keys.CONTROL).perform())
        self.wait_run(lambda: self.one('#more').click())

    def try_stories(self):
        """The rows are those of tools/why, and each marks its lines."""
        for name in ('sums_may_alias.kernel', 'smooth_named.kernel'):
            self.choose(name)
            path = os.path.join(ROOT, 'examples', 'drafts', name)
            library = self.js("return document.getElementById('library').value")
            told = subprocess.run([sys.executable, os.path.join(ROOT, 'tools', 'why'), library, path, '--binary', self.binary],
                                  capture_output=True, text=True).stdout.replace('`', '')
            for story in self.all('#stories > li'):
                for sentence in story.find_elements(By.CSS_SELECTOR, 'li'):
                    need(sentence.text in told, f'{name}: tools/why does not say {sentence.text!r}')
                need(story.find_element(By.CSS_SELECTOR, '.place').text in told or ' rows:' in told, f'{name}: another place')
                lines = [int(n) for n in re.findall(r'\d+', story.find_element(By.CSS_SELECTOR, '.quiet').text)[:2]]
                story.find_element(By.CSS_SELECTOR, 'button').click()
                marked = [int(one.get_attribute('data-n')) for one in self.all('#editor .line.marked')]
                need(marked and marked[0] == lines[0] and marked[-1] == lines[-1], f'{name}: {marked} are marked for {lines}')
                need(self.all('#picture .of-line'), f'{name}: no box is marked')
        self.choose('luma_planes.c')
        self.one('#stories button').click()
        marked = [one.get_attribute('textContent').strip() for one in self.all('#editor .line.marked')]
        need(marked == ['d[i] = (uint16_t)(b[i] * 25u + r[i] * 66u + g[i] * 129u + 128) >> 8;'], f'marked in the C: {marked}')

    def try_saved(self):
        self.choose('wide_sums.kernel')
        for tab, buttons in (('plan', 2), ('program', 1), ('assembly', 1)):
            self.tab(tab)
            some = [one for one in self.all(f'#panel-{tab} button') if one.text.startswith('Save')]
            need(len(some) == buttons, f'{len(some)} buttons to save in {tab}')
            for one in some:
                one.click()
        paths = [os.path.join(self.saved, name) for name in ('plan.svg', 'plan.txt', 'vegen.program', 'vegen.s')]
        self.wait('the saved files', lambda: all(os.path.exists(path) for path in paths))
        time.sleep(1)
        root = xml.etree.ElementTree.parse(paths[0]).getroot()
        packs = [one for one in root.iter() if 'pack' in one.get('class', '').split()]
        with open(paths[1], encoding='utf-8') as plan, open(paths[2], encoding='utf-8') as program:
            need(plan.read() == self.vegen('explain'), 'the saved plan is another one')
            need(program.read() == self.vegen('compile'), 'the saved program is another one')
        need(len(packs) == self.vegen('explain').count('pack '), 'the saved picture has other bands')
        self.tab('plan')

    def try_widths(self):
        for name in ('smooth_named.kernel', 'four_columns.kernel', 'dot_i16.c'):
            self.choose(name)
            for size in (WIDE, NARROW, (320, 700), (1920, 1100)):
                self.size(*size)
                typed, below = self.look('heights')
                need(abs(typed - below) < 4, f'{name} at {size[0]}: the editor has {typed} pixels of lines, and {below} below')
                for tab in TABS:
                    self.tab(tab)
                    time.sleep(0.3)
                    wide = self.look('overflow')
                    need(not wide, f'{name}, {tab} at {size[0]}: {wide}')
                    self.driver.execute_cdp_cmd('Page.bringToFront', {})
                    self.picture(f'{name}-{tab}-{size[0]}')
        self.size(*WIDE)
        self.tab('plan')

    def try_contrast(self):
        seen = 0
        for name in ('complex_multiply.kernel', 'smooth_named.kernel', 'dot_i16.c'):
            self.choose(name)
            for scheme in ('light', 'dark'):
                self.scheme(scheme)
                for tab in TABS:
                    self.tab(tab)
                    count, bad = self.look('contrasts')
                    need(not bad, f'{name}, {tab}, {scheme}: {bad}')
                    seen += count
                self.tab('plan')
                self.picture(f'contrast-{name}-{scheme}')
        self.wait_run(lambda: self.typed('kernel mine(p: ptr) {\n  x = -129i8;\n}\n'))
        for scheme in ('dark', 'light'):
            self.scheme(scheme)
            need(not (bad := self.look('contrasts')[1]), f'a fault, {scheme}: {bad}')
        return f'{seen} texts'

    # The pictures of docs/explorer.md

    def show_for_picture(self, name, scheme, height):
        self.scheme(scheme)
        self.size(1280, height)
        Select(self.one('#library')).select_by_visible_text('avx2')
        self.choose(name)
        self.tab('plan')

    def take_picture(self, folder, name):
        self.js('document.activeElement.blur(); scrollTo(0, 0)')
        self.driver.save_screenshot(os.path.join(folder, name + '.png'))
        self.scheme('light')
        self.size(*WIDE)

    def make_plan(self, folder):
        """A plan, in light, with a lane that is pointed at."""
        self.show_for_picture('complex_multiply.kernel', 'light', 900)
        ActionChains(self.driver).move_to_element(self.all('#picture .call .cell')[2]).perform()
        self.take_picture(folder, 'explorer-plan')

    def make_rows(self, folder):
        """A kernel that stays scalar, in dark, with what is said of its rows."""
        self.show_for_picture('sums_may_alias.kernel', 'dark', 1000)
        self.one('#stories button').click()
        self.take_picture(folder, 'explorer-rows')
