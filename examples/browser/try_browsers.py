"""Two browsers for try.py: Chromium by selenium, and Firefox by its own protocol, Marionette, since Debian has no geckodriver."""
import base64, json, os, shutil, socket, subprocess, tempfile, time

CHROMIUM, DRIVER, FIREFOX = "/usr/bin/chromium", "/usr/bin/chromedriver", "/usr/bin/firefox-esr"


class Chromium:
    name = "chromium"

    def __init__(self, downloads):
        from selenium import webdriver
        from selenium.webdriver.chrome.service import Service
        options = webdriver.ChromeOptions()
        options.binary_location = CHROMIUM
        for word in ["--headless=new", "--no-sandbox", "--disable-dev-shm-usage", "--ignore-certificate-errors", "--hide-scrollbars"]:
            options.add_argument(word)
        options.set_capability("goog:loggingPrefs", {"browser": "ALL"})
        self.driver = webdriver.Chrome(service=Service(DRIVER), options=options)
        self.driver.set_page_load_timeout(120)
        self.said = []
        self.command("Browser.setDownloadBehavior", {"behavior": "allow", "downloadPath": downloads})
        self.command("Browser.grantPermissions", {"permissions": ["clipboardReadWrite", "clipboardSanitizedWrite"]})

    def command(self, name, values):
        return self.driver.execute_cdp_cmd(name, values)

    def go(self, url):
        self.driver.get(url)

    def back(self):
        self.driver.back()

    def run(self, script, *arguments):
        return self.driver.execute_script(script, *arguments)

    def run_later(self, script, *arguments):
        """A script whose last argument is called with what it gives."""
        return self.driver.execute_async_script(script, *arguments)

    def click(self, element):
        element.click()

    def name_of(self, element):
        return element.accessible_name

    def type(self, element, keys):
        element.send_keys(keys)

    def press(self, keys):
        self.driver.switch_to.active_element.send_keys(keys)

    def press_shifted(self, key):
        self.driver.switch_to.active_element.send_keys("\ue008" + key)

    def size(self, width, height):
        values = {"width": width, "height": height, "deviceScaleFactor": 1, "mobile": width < 600}
        self.command("Emulation.setDeviceMetricsOverride", values)

    def scheme(self, name):
        self.command("Emulation.setEmulatedMedia", {"features": [{"name": "prefers-color-scheme", "value": name}]})

    def picture(self, path):
        self.driver.save_screenshot(path)

    def complaints(self):
        """What the browser complained of since the last time."""
        return [line["message"] for line in self.driver.get_log("browser") if line["level"] in ("SEVERE", "WARNING")]

    def close(self):
        self.driver.quit()


ELEMENT = "element-6066-11e4-a52e-4f735466cecf"  # WebDriver's name for an element in JSON

PREFERENCES = {
    "marionette.port": 29828, "app.update.disabledForTesting": True, "browser.shell.checkDefaultBrowser": False,
    "datareporting.policy.dataSubmissionEnabled": False, "browser.aboutwelcome.enabled": False, "toolkit.telemetry.server": "",
    "network.http.phishy-userpass-length": 255, "network.auth.confirmAuth.enabled": False, "browser.download.folderList": 2,
    "browser.download.always_ask_before_handling_new_types": False, "browser.download.panel.shown": True,
    "browser.download.alwaysOpenPanel": False, "dom.events.testing.asyncClipboard": True, "layout.css.prefers-color-scheme.content-override": 1,
    "browser.tabs.remote.autostart": True, "network.captive-portal-service.enabled": False, "network.connectivity-service.enabled": False,
    "extensions.getAddons.cache.enabled": False, "services.settings.server": "", "browser.safebrowsing.downloads.enabled": False,
}


class Firefox:
    name = "firefox"

    def __init__(self, downloads):
        self.profile = tempfile.mkdtemp()
        with open(os.path.join(self.profile, "user.js"), "w") as file:
            for name, value in {**PREFERENCES, "browser.download.dir": downloads}.items():
                file.write(f"user_pref({json.dumps(name)}, {json.dumps(value)});\n")
        command = [FIREFOX, "--headless", "--no-remote", "--marionette", "--remote-allow-system-access", "--width", "1200", "--height", "1500", "--profile", self.profile]
        quiet = {"stdout": subprocess.DEVNULL, "stderr": subprocess.DEVNULL}
        self.process = subprocess.Popen(command, env={**os.environ, "HOME": self.profile}, **quiet)
        self.number = self.said = 0
        try:
            self.connect()
            self.read()
            self.command("WebDriver:NewSession", {"acceptInsecureCerts": True})
        except BaseException:
            self.process.kill()
            raise

    def connect(self):
        for _ in range(600):
            try:
                self.socket = socket.create_connection(("127.0.0.1", PREFERENCES["marionette.port"]), 300)
                return
            except OSError:
                time.sleep(0.1)
        raise SystemExit("Firefox doesn't listen")

    def read(self):
        head = b""
        while not head.endswith(b":"):
            head += self.socket.recv(1)
        body, length = b"", int(head[:-1])
        while len(body) < length:
            body += self.socket.recv(length - len(body))
        return json.loads(body)

    def command(self, name, values=None):
        self.number += 1
        words = json.dumps([0, self.number, name, values or {}]).encode()
        self.socket.sendall(b"%d:%s" % (len(words), words))
        _, _, error, result = self.read()
        if error:
            raise RuntimeError(f"{name}: {error['error']}: {error['message']}")
        return result["value"] if isinstance(result, dict) and set(result) == {"value"} else result

    def go(self, url):
        self.command("WebDriver:Navigate", {"url": url})

    def back(self):
        self.command("WebDriver:Back")

    def run(self, script, *arguments):
        return self.command("WebDriver:ExecuteScript", {"script": script, "args": list(arguments), "newSandbox": False, "sandbox": None})

    def run_later(self, script, *arguments):
        return self.command("WebDriver:ExecuteAsyncScript", {"script": script, "args": list(arguments), "newSandbox": False, "sandbox": None})

    def inside(self, script, *arguments):
        """Runs a script in the browser's own windows."""
        self.command("Marionette:SetContext", {"value": "chrome"})
        try:
            return self.run(script, *arguments)
        finally:
            self.command("Marionette:SetContext", {"value": "content"})

    def click(self, element):
        self.command("WebDriver:ElementClick", {"id": element[ELEMENT]})

    def name_of(self, element):
        return self.command("WebDriver:GetComputedLabel", {"id": element[ELEMENT]})

    def type(self, element, keys):
        self.command("WebDriver:ElementSendKeys", {"id": element[ELEMENT], "text": keys})

    def press(self, keys):
        """Control, as a first key, is held down meanwhile."""
        held, keys = (keys[:1], keys[1:]) if keys[:1] in ("\ue008", "\ue009") else ("", keys)
        actions = [{"type": kind, "value": key} for key in keys for kind in ("keyDown", "keyUp")]
        if held:
            actions = [{"type": "keyDown", "value": held}, *actions, {"type": "keyUp", "value": held}]
        self.command("WebDriver:PerformActions", {"actions": [{"type": "key", "id": "keys", "actions": actions}]})

    def press_shifted(self, key):
        self.press("\ue008" + key)

    def size(self, width, height):
        """A window is no narrower than 450 pixels, so its content is."""
        self.command("WebDriver:SetWindowRect", {"width": max(width, 500), "height": height + 85})
        self.inside("gBrowser.selectedBrowser.style.maxWidth = arguments[0]", f"{width}px" if width < 500 else "")
        time.sleep(0.3)

    def scheme(self, name):
        value = 0 if name == "dark" else 1
        self.inside("Services.prefs.setIntPref('layout.css.prefers-color-scheme.content-override', arguments[0])", value)
        time.sleep(0.3)

    def picture(self, path):
        with open(path, "wb") as file:
            file.write(base64.b64decode(self.command("WebDriver:TakeScreenshot", {"full": False})))

    def complaints(self):
        """What the console has of the page's scripts and of its policy."""
        all_messages = self.inside("""
            return Services.console.getMessageArray().filter((it) => it instanceof Ci.nsIScriptError && it.sourceName.startsWith("https://localhost"))
              .map((it) => `${it.category}: ${it.errorMessage} (${it.sourceName}:${it.lineNumber})`)""")
        fresh, self.said = all_messages[self.said:], len(all_messages)
        return fresh

    def close(self):
        try:
            self.command("Marionette:Quit", {"flags": ["eForceQuit"]})
        except (OSError, RuntimeError, ValueError):
            pass
        try:
            self.process.wait(20)
        except subprocess.TimeoutExpired:
            self.process.kill()
        shutil.rmtree(self.profile, ignore_errors=True)


def browsers():
    """Those that are installed."""
    return [kind for kind, path in [(Chromium, CHROMIUM), (Firefox, FIREFOX)] if os.path.exists(path)]
