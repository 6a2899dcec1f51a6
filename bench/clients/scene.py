"""A hub of this machine, windows of EiskaltDC++ and terminals of ncdc on it, and what they show. `operators` and `pictures` play
with them. Needs ncdc, eiskaltdcpp-qt, xvfb, openbox, xdotool, xclip, tmux; for pictures xterm, imagemagick and pngquant as well."""

import glob
import json
import os
import re
import select
import shutil
import socket
import subprocess
import tempfile
import threading
import time

TOP = os.path.dirname(os.path.dirname(os.path.dirname(os.path.abspath(__file__))))
HUB = os.environ.get("HUB", f"{TOP}/crates/adc_hub/out/adc_hub")
TOOL = os.environ.get("HUBCTL", f"{TOP}/crates/adc_hubctl/out/adc_hubctl")
TABLES = os.environ.get("TIGER", f"{TOP}/tiger.bin")
MAKER = f"{TOP}/crates/tiger_tables/out/tiger_tables"
PASSWORDS = {"op": "a long sentence that nobody guesses", "op2": "another long sentence"}
NEEDED = ["ncdc", "eiskaltdcpp-qt", "Xvfb", "openbox", "xdotool", "xclip", "tmux"]
# Where things are in a window of EiskaltDC++, in pixels.
LIST_TOP, TAB, SAY_UP = 90, (62, 36), 69
# Entries of EiskaltDC++'s menus, in the order in which its menus show those of the sample settings.
USER_MENU = ["Kick", "Kick, with a reason", "Ban for an hour", "Ban for a day", "Ban for good", "Take back a ban", "Topic"]
HUB_MENU = ["Take back a ban", "Topic"]
# What EiskaltDC++ writes at its first start, since it takes what is missing there as empty; but without toolbars and questions.
WINDOW_KEYS = """app-emoticon-theme=default
app-theme-icons=default
app-theme-name=
app-theme-users=default
app-unit-base=1024
chat-bt-color=#838383
chat-co-color=#ff0000
chat-fu-color=#00ff7f
chat-keep-focus=1
chat-lc-color=#078010
chat-max-paragraph=1000
chat-msg-color=#000000
chat-op-color=#000000
chat-pr-lc-color=#078010
chat-pr-us-color=#ac0000
chat-say-mynick=#2344e7
chat-separator=:
chat-show-joins=0
chat-show-joins-fav-only=1
chat-show-timestamp=1
chat-st-color=#ac0000
chat-status-history-size=5
chat-status-msg-max-len=128
chat-timestamp=hh:mm:ss
chat-ts-color=#000000
chat-us-color=#ac0000
chat-userlist-sort-column=0
chat-userlist-sort-order=0
default_locale=UTF-8
exit-confirm=0
last-status=1
main-menu-visible=1
mainwindow-maximized=0
mainwindow-remember-position-on-exit=0
mainwindow-use-multi-line-tabbar=1
mainwindow-use-sidebar=0
notify-enabled=0
number-of-output-messages-in-history=50
show-free-space=0
show-ip-in-chat=0
show-joins=0
systemtray-enabled=0
tools-panel-visible=0
users-statistics=1
widgets-panel-visible=1
"""


def wait_for(look, seconds=10.0):
    """What `look` gives as soon as that is true of it, else what it gave last."""
    end = time.monotonic() + seconds
    while not (found := look()) and time.monotonic() < end:
        time.sleep(0.2)
    return found


class Wire:
    """Stands between one client and the hub, and remembers the lines that the client sends."""

    def __init__(self, port):
        self.hub_port, self.lines = port, []
        self.listener = socket.create_server(("127.0.0.1", 0))
        self.port = self.listener.getsockname()[1]
        threading.Thread(target=self.serve, daemon=True).start()

    def serve(self):
        while True:
            client, _ = self.listener.accept()
            threading.Thread(target=self.carry, args=(client,), daemon=True).start()

    def carry(self, client):
        with client, socket.create_connection(("127.0.0.1", self.hub_port)) as hub:
            rest = b""
            while True:
                for source in select.select([client, hub], [], [])[0]:
                    try:
                        data = source.recv(65536)
                        (hub if source is client else client).sendall(data)
                    except OSError:
                        return
                    if not data:
                        return
                    if source is client:
                        *lines, rest = (rest + data).split(b"\n")
                        self.lines += [line.decode() for line in lines]


class Scene:
    def __init__(self, width=1280, height=800):
        missing = [it for it in [HUB, TOOL, *NEEDED] if not shutil.which(it)]
        if missing:
            raise SystemExit(f"missing: {' '.join(missing)}")
        self.folder, self.processes = tempfile.mkdtemp(), []
        self.tmux_socket = f"{self.folder}/tmux"
        try:
            self.begin(width, height)
        except BaseException:
            self.close()
            raise

    def __enter__(self):
        return self

    def __exit__(self, *_):
        self.close()

    def begin(self, width, height):
        self.home = {"HOME": self.folder, "XDG_RUNTIME_DIR": self.folder, "LANG": "C.UTF-8", "PATH": os.environ["PATH"]}
        if os.path.exists(TABLES):
            shutil.copy(TABLES, f"{self.folder}/tiger.bin")
        else:
            with open(f"{self.folder}/tiger.bin", "wb") as file:
                subprocess.run([MAKER], stdout=file, check=True, timeout=60)
        for nick, password in PASSWORDS.items():
            with open(f"{self.folder}/{nick}.txt", "w") as file:
                file.write(password + "\n")
        reader, writer = os.pipe()
        self.start(["Xvfb", "-displayfd", str(writer), "-screen", "0", f"{width}x{height}x24", "-nolisten", "tcp", "-noreset"], pass_fds=[writer])
        os.close(writer)
        if not select.select([reader], [], [], 20)[0]:
            raise RuntimeError("Xvfb does not start")
        # It writes the number and then the line feed, and ends where nobody reads that.
        with os.fdopen(reader) as said:
            self.home["DISPLAY"] = ":" + said.readline().strip()
        self.start(["openbox"], env=self.home)
        self.port = self.hub()

    def start(self, words, **more):
        more.setdefault("stdout", subprocess.DEVNULL)
        process = subprocess.Popen(words, stderr=subprocess.DEVNULL, stdin=subprocess.DEVNULL, cwd=self.folder, **more)
        self.processes.append(process)
        return process

    def close(self):
        """Ends what was started, the last first."""
        subprocess.run(["tmux", "-S", self.tmux_socket, "kill-server"], capture_output=True, check=False)
        for process in reversed(self.processes):
            process.terminate()
            try:
                process.wait(3)
            except subprocess.TimeoutExpired:
                process.kill()
                process.wait()
        self.free_keys()
        shutil.rmtree(self.folder, ignore_errors=True)

    def free_keys(self):
        """Each EiskaltDC++ leaves a semaphore and memory in the kernel, whose keys are made from files that stand for them (ftok)."""
        for kind, files, flag in [("sem", "qipc_systemsem_*", "-s"), ("shm", "qipc_sharedmemory_*", "-m")]:
            found = [os.stat(path) for path in glob.glob(f"{self.folder}/*/{files}")]
            keys = {(it.st_dev & 0xFF) << 16 | it.st_ino & 0xFFFF for it in found}
            with open(f"/proc/sysvipc/{kind}") as table:
                rows = [line.split() for line in table.readlines()[1:]]
            for row in rows:
                if int(row[0]) & 0xFFFFFF in keys:
                    subprocess.run(["ipcrm", flag, row[1]], check=False, capture_output=True)

    def hub(self, **changes):
        """Starts a hub with the sample settings, two accounts and `changes`; gives its port."""
        with open(f"{TOP}/examples/hub.toml") as file:
            text = file.read()
        for name, value in {"listen": '"127.0.0.1:0"', "tables": f'"{self.folder}/tiger.bin"', **changes}.items():
            text, count = re.subn(rf"(?m)^{name} = .*", f"{name} = {value}", text)
            assert count == 1, name
        for nick, password in PASSWORDS.items():
            text += f'\n[[account]]\nnick = "{nick}"\npassword = "{password}"\noperator = true\n'
        path = f"{self.folder}/hub{len(self.processes)}.toml"
        with open(path, "w") as file:
            file.write(text)
        hub = self.start([HUB, "serve", path], stdout=subprocess.PIPE, text=True)
        if not select.select([hub.stdout], [], [], 20)[0]:
            raise RuntimeError("the hub does not listen")
        return int(hub.stdout.readline().rsplit(":", 1)[1])

    def tool(self, *words, nick="op2"):
        """The status of the operators' tool and what it prints."""
        name, *rest = words
        words = [TOOL, name, f"127.0.0.1:{self.port}", *rest, "--nick", nick]
        words += ["--password-file", f"{self.folder}/{nick}.txt"] if nick in PASSWORDS else []
        done = subprocess.run(words, capture_output=True, text=True, timeout=30, cwd=self.folder, stdin=subprocess.DEVNULL, check=False)
        return done.returncode, (done.stdout + done.stderr).strip()

    def present(self):
        """Nicks and client identifiers, as the hub tells them to a guest."""
        status, text = self.tool("who", "--json", nick="guest")
        return {it["nick"]: it["cid"] for it in json.loads(text)} if status == 0 else {}

    def picture(self, path, crop=None):
        raw = f"{self.folder}/raw.png"
        subprocess.run(["import", "-window", "root", *(["-crop", crop, "+repage"] if crop else []), raw], env=self.home, check=True, timeout=30)
        subprocess.run(["pngquant", "--force", "--strip", "--speed", "1", "--output", path, "32", raw], check=True, timeout=60)


class Client:
    """What a client shows, and what of it is new since `mark`."""

    def mark(self):
        self.seen = self.shown()

    def news(self):
        now = self.shown()
        # What has scrolled away or changed would make old lines look new.
        assert now[:len(self.seen)] == self.seen, f"old lines are no longer shown: {self.seen} {now}"
        return now[len(self.seen):]

    def sees(self, pattern, seconds=10.0):
        """The first new line in which `pattern` is, or None."""
        return wait_for(lambda: next((line for line in self.news() if re.search(pattern, line)), None), seconds)


class Ncdc(Client):
    def __init__(self, scene, window, port=None, password=None, size=(150, 200), name=None):
        """`window` names its terminal; it is its nick where no other `name` is given."""
        self.scene, self.window, self.nick, self.seen = scene, window, name or window, []
        columns, rows = map(str, size)
        self.tmux("-f", "/dev/null", "new-session", "-d", "-s", window, "-x", columns, "-y", rows, f"exec ncdc -c {scene.folder}/ncdc-{window}")
        self.tmux("set-option", "-g", "status", "off")
        assert wait_for(lambda: "Welcome" in self.text()), "ncdc does not start"
        # An address of this machine alone; nothing is looked up or listened for.
        for line in [f"/set nick {self.nick}", "/set active false", "/set autorefresh 0", f"/open -n hub adc://127.0.0.1:{port or scene.port}"]:
            self.type(line)
        if password:
            self.type(f"/hset password {password}")
        self.type("/connect")

    def tmux(self, *words):
        done = subprocess.run(["tmux", "-S", self.scene.tmux_socket, *words], env=self.scene.home, capture_output=True, text=True, timeout=10, check=True)
        return done.stdout

    def type(self, line):
        self.tmux("send-keys", "-t", self.window, "-l", line)
        self.tmux("send-keys", "-t", self.window, "Enter")
        time.sleep(0.2)

    def text(self):
        return self.tmux("capture-pane", "-p", "-J", "-t", self.window)

    def topic(self):
        return self.text().splitlines()[0]

    def users(self, count):
        """How many users it says that the hub has, where that becomes `count`."""
        return wait_for(lambda: (found := re.search(r"\d+ users", self.text())) and found[0] if f" {count} users" in self.text() else None)

    def shown(self):
        """The lines of the hub's window, each without its time; a line that was broken is put together."""
        lines = []
        # The topic stands above, the connection's state, the prompt and two lines of the program below.
        for line in self.text().splitlines()[1:-4]:
            if found := re.match(r"\d\d:\d\d:\d\d (.*)", line):
                lines.append(found[1].strip())
            elif lines and line.strip():
                lines[-1] += " " + line.strip()
        return lines

    def leave(self):
        self.type("/quit")


class Eiskalt(Client):
    """A window of EiskaltDC++. `wire` tells what it sends, where it is recorded; else the client has the hub's own port."""

    def __init__(self, scene, nick, place=(0, 0), size=(640, 440), port=None, password=None, is_recorded=True):
        self.scene, self.nick, self.seen, self.home = scene, nick, [], f"{scene.folder}/window-{nick}-{len(scene.processes)}"
        self.width, self.height, self.place = *size, place
        port = port or scene.port
        self.wire = Wire(port) if is_recorded else None
        folder = f"{self.home}/.config/eiskaltdc++"
        os.makedirs(folder)
        head = '<?xml version="1.0" encoding="utf-8" standalone="yes"?>\n'
        with open(f"{folder}/Favorites.xml", "w") as file:
            password = f'Password="{password}" ' if password else ""
            file.write(f'{head}<Favorites><Hubs><Hub Name="Hub" Connect="1" Nick="{nick}" {password}'
                       f'Server="adc://127.0.0.1:{self.wire.port if self.wire else port}" Encoding="UTF-8"/></Hubs></Favorites>\n')
        with open(f"{folder}/DCPlusPlus.xml", "w") as file:
            # Passive, without DHT: nothing outside of this machine is asked for.
            file.write(f'{head}<DCPlusPlus><Settings><Nick type="string">{nick}</Nick><UseDHT type="int">0</UseDHT>'
                       '<IncomingConnections type="int">3</IncomingConnections>'
                       '<BindAddress type="string">127.0.0.1</BindAddress></Settings></DCPlusPlus>\n')
        with open(f"{folder}/EiskaltDC++_Qt.conf", "w") as file:
            chat = f"chat-width={self.width - 190}\nchat-userlist-width=170\n"
            size_keys = f"mainwindow-width={self.width}\nmainwindow-height={self.height}\n"
            file.write(f"[General]\n{WINDOW_KEYS}{chat}{size_keys}\n[app]\nfirstrun=false\n")
        before = self.windows()
        # A second EiskaltDC++ of the same user would hand over to the first and end.
        user = {"HOME": self.home, "TMPDIR": self.home, "LOGNAME": nick, "USER": nick}
        self.process = scene.start(["eiskaltdcpp-qt"], env={**scene.home, **user})
        new = wait_for(lambda: self.windows() - before, 30)
        assert new, "EiskaltDC++ does not start"
        self.window = sorted(new)[0]
        self.x("windowsize", "--sync", self.window, str(self.width), str(self.height))
        self.x("windowmove", self.window, *map(str, place))
        time.sleep(1)

    def x(self, *words, check=True):
        return subprocess.run(["xdotool", *words], env=self.scene.home, capture_output=True, text=True, timeout=15, check=check).stdout.strip()

    def windows(self):
        return set(self.x("search", "--onlyvisible", "--name", ":: EiskaltDC|^EiskaltDC", check=False).split())

    def area(self):
        """Where the window stands with its frame, as ImageMagick wants it."""
        return f"{self.width + 2}x{self.height + 26}+{self.place[0] - 1}+0"

    def title(self):
        return self.x("getwindowname", self.window)

    def click(self, x, y, button=1):
        self.x("windowactivate", "--sync", self.window)
        self.x("mousemove", "--window", self.window, str(x), str(y), "click", str(button))
        time.sleep(0.3)

    def keys(self, *names):
        for name in names:
            self.x("key", name)
            time.sleep(0.12)

    def shown(self):
        """The lines of the chat, each without its time, taken as a user copies them."""
        self.click(*self.chat_place())
        self.keys("ctrl+a", "ctrl+c")
        time.sleep(0.2)
        text = subprocess.run(["xclip", "-o", "-selection", "clipboard"], env=self.scene.home, capture_output=True, text=True, timeout=5, check=False).stdout
        self.click(*self.chat_place())
        return [re.sub(r"^\[\d\d:\d\d:\d\d\]\s*", "", line).replace("\u2028", " ").strip() for line in text.splitlines() if line.strip()]

    def chat_place(self):
        return self.width // 4, self.height // 2

    def open_user_menu(self, nick):
        """Opens the entries of the hub's menu for a user: operators stand first in the list, each part by its nicks."""
        nicks = sorted(self.scene.present(), key=lambda it: (it not in PASSWORDS, it))
        self.click(self.width - 145, LIST_TOP + 19 * nicks.index(nick), 3)
        time.sleep(0.5)
        self.keys("Up", "Right")

    def open_hub_menu(self):
        """Opens the hub's entries from its tab: they stand above `Close`, with a line between others first."""
        self.click(*TAB, 3)
        time.sleep(0.5)
        self.keys("Up", "Up", "Right")

    def choose(self, menu, entry, typed=None):
        """Chooses an entry of the open menu; types into the box that it opens."""
        self.keys(*["Down"] * menu.index(entry), "Return")
        if typed is not None:
            assert wait_for(lambda: self.box(entry), 5), f"no box is opened by {entry}"
            self.x("type", "--delay", "30", typed)
            self.keys("Return")

    def box(self, name):
        return self.x("search", "--onlyvisible", "--name", re.escape(name), check=False)

    def act_on(self, nick, entry, typed=None):
        self.open_user_menu(nick)
        self.choose(USER_MENU, entry, typed)

    def act_on_hub(self, entry, typed=None):
        self.open_hub_menu()
        self.choose(HUB_MENU, entry, typed)

    def reconnect(self):
        self.click(*TAB, 3)
        time.sleep(0.3)
        self.keys("Down", "Return")

    def say(self, text):
        self.click(self.width // 4, self.height - SAY_UP)
        self.x("type", "--delay", "30", text)
        self.keys("Return")

    def leave(self):
        # Ended so, it frees its shared memory.
        self.process.terminate()
        self.process.wait(10)
