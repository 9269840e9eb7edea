"""What a document does, as JavaScript that is run in its frame."""
import json

FETCH = """fetch(%s, {mode: %s, credentials: 'omit', signal: (self.__stop = new AbortController()).signal}).then(
async response => { let bytes = new Uint8Array(await response.arrayBuffer());
return {type: response.type, body: [...bytes].map(byte => byte.toString(16).padStart(2, '0')).join('')}; }
).catch(error => ({error: String(error)}))"""
STOP = "self.__stop && __stop.abort()"
FRAME = """(() => { let element = document.createElement('iframe'); %s document.body.append(element);
%s return 'done'; })()"""
KEEP = "__children.push(element.contentWindow); __elements.push(element);"
# What the service `store` answers, by localStorage.
STORE = {
    "get": "(value => value === null ? 'none' : 'some ' + value)(localStorage.getItem(%(key)s))",
    "set": "(localStorage.setItem(%(key)s, %(value)s), 'done')",
    "remove": "(value => (localStorage.removeItem(%(key)s), value === null ? 'none' : 'done'))"
              "(localStorage.getItem(%(key)s))",
}
WORD = json.dumps


def window_of(name):
    """The window that an action's frame stands for."""
    return f"__children[{name.split()[1]}]" if name.startswith("child ") else name


def add_frame(action, is_kept):
    """A frame is added; `is_kept` says whether it counts as a child."""
    source = f"element.src = {WORD(action['src'])};" if "src" in action else "element.srcdoc = '<!doctype html>srcdoc';"
    sandbox = "element.sandbox = 'allow-scripts';" if action.get("sandbox") else ""
    return FRAME % (sandbox + source, KEEP if is_kept else "")


def remove_frame(action):
    return f"(__elements[{action['child']}].remove(), 'done')"


def navigate(action):
    return f"(() => {{ {window_of(action['frame'])}.location = {WORD(action['url'])}; return 'done'; }})()"


def open_page(action):
    return f"open({WORD(action['url'])}) ? 'done' : 'denied'"


def post(action):
    words = f"{WORD(action['text'])}, {WORD(action['target'])}"
    return f"({window_of(action['frame'])}.postMessage({words}), 'done')"


def ask_store(request):
    """Nothing where the store knows no such request."""
    verb, _, rest = request.partition(" ")
    key, _, value = rest.partition(" ")
    form = STORE.get(verb)
    return form and form % {"key": WORD(key), "value": WORD(value)}


def fetch(action):
    return FETCH % (WORD(action["url"]), WORD(action["mode"]))


def reads_as_url(text):
    """Whether Chromium reads this text as a URL by itself."""
    return f"(() => {{ try {{ new URL({WORD(text)}); return true; }} catch (error) {{ return false; }} }})()"
