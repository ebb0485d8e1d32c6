"""Control entries and bank entries, each as a caller, a call and an answer in words."""
import json

from .units import blocks, count, cut, size, span

JSON = json.JSONDecoder()
REQUESTS = ("PLUG", "UNPLUG", "UNPLUG_ALL", "STATE")
ANSWERS = ("ACK", "NACK", "BUSY", "ERROR")
STATES = ("plugged", "unplugged", "mixed")


# ---- callers


def control_caller(n):
    if n == 0:
        return "program"
    if n <= 16:
        return f"session {n}"
    return f"vCPU {n - 17}" if n <= 32 else f"queues {n}"


def bank_caller(n):
    if n == 0:
        return "owner"
    return f"vCPU {n - 1}" if n <= 16 else f"slot {n - 16}"


# ---- values


def config(value):
    """A configuration in a few words."""
    cpus, memory = value["cpus"], value["memory"]
    words = [f"{count(cpus['boot_vcpus'], 'vCPU')} of at most {cpus['max_vcpus']}"]
    if not memory["zones"]:
        words.append(zone("", memory))
    words += [zone(f"zone {z['id']} ", z) for z in memory["zones"]]
    words += [disk(d) for d in value["disks"]]
    return ", ".join(words)


def zone(name, z):
    more = f" + {size(z['hotplug_size'])} to plug" if z["hotplug_size"] else ""
    asked = f", {size(z['hotplugged_size'])} of it asked for" if z["hotplugged_size"] else ""
    return f"{name}{size(z['size'])}{more}{asked}"


def disk(d):
    named = f" as {d['id']}" if "id" in d else ""
    return f"disk {d['path']}{named}{' read-only' if d['readonly'] else ''}"


def info(value):
    """What vm.info shows, in a few words."""
    words = [value["state"], size(value["memory_actual_size"])]
    words.append("vCPUs " + " ".join(map(str, value["vcpus"])) if value["vcpus"] else "no vCPU present")
    words += [f"{d['id']} at {d['bdf']}" for d in value["devices"]]
    for z in value["zones"]:
        if z["plugged_size"] or z["requested_size"]:
            words.append(f"{z['id']}: {size(z['plugged_size'])} plugged, {size(z['requested_size'])} asked for")
    return ", ".join(words)


def counters(value):
    told = [f"{k}: {count(d['read_ops'], 'read')} ({size(d['read_bytes'])}), {count(d['write_ops'], 'write')} ({size(d['write_bytes'])})" for k, d in value.items()]
    return "; ".join(told) if told else "no disk"


def note(words):
    """The state of a vCPU, or of a device's queue."""
    if words[0] == "cpu":
        regs = [f"r{i} {r}" for i, r in enumerate(words[5:21]) if r != "0x0"]
        state = "halted" if words[4] == "1" else f"{words[3]} instructions left"
        return f"vCPU {words[1]} at line {words[2]}, {state}, " + (" ".join(regs) if regs else "registers 0"), words[21:]
    done = f"{count(int(words[4]), 'read')} ({size(int(words[6]))}), {count(int(words[5]), 'write')} ({size(int(words[7]))})"
    return f"queue of slot {words[1]} at {words[2]} and {words[3]}, {done}", words[8:]


def sent(pairs, whole):
    return f"{count(len(pairs) // 2, 'byte')}: {cut(pairs, 40, whole)}"


# ---- control calls


def hand(words):
    told, rest = note(words)
    place = rest.index("order")
    books = [b for b in rest[place + 1:] if b != "-"]
    why = " ".join(rest[1:place])
    return f"hand back {told}; ended {why}; {count(len(books), 'entry').replace('entrys', 'entries')} in books"


def resize(vcpus, ram):
    words = [] if vcpus == "-" else [count(int(vcpus), "vCPU")]
    words += [] if ram == "-" else [f"{size(int(ram))} of memory"]
    return "resize to " + " and ".join(words) if words else "resize, asking nothing"


def access(word, words):
    width = count(int(words[1]), "byte")
    port = {"in": "port", "out": "port", "mmr": "address", "mmw": "address"}[word]
    told = f"{'write' if word in ('out', 'mmw') else 'read'} {width} at {port} {words[2]}"
    return told + (f": {words[3]}" if len(words) > 3 else "")


def memory(words):
    kind = REQUESTS[int(words[1])] if int(words[1]) < len(REQUESTS) else f"type {words[1]}"
    return f"memory device in slot {words[0]}: {kind} {blocks(int(words[3]))} at {words[2]}"


def control_call(word, words):
    """A control call without JSON, in words."""
    if word == "resize":
        return resize(*words)
    if word == "take":
        return f"take vCPU {words[1]}" if words[0] == "vcpu" else "take a queue"
    if word == "hand":
        return hand(words)
    if word in ("in", "out", "mmr", "mmw"):
        return access(word, words)
    if word == "mem":
        return memory(words)
    return " ".join([word] + words)


def json_call(word, value, rest):
    """A control call with JSON, in words, and what stands behind the JSON."""
    if word == "create":
        return f"create {config(value)}"
    if word == "add":
        return f"add {disk(value)}"
    if word == "zone":
        return f"resize zone {json.dumps(value, ensure_ascii=False)} to {size(int(rest))}"
    return f"remove {json.dumps(value, ensure_ascii=False)}"


def control_reply(text):
    """The answer of a control call, in words."""
    words = text.split(" ")
    if words[0] in ("shown", "counted", "added"):
        value = json.loads(text[len(words[0]) + 1:])
        if words[0] == "added":
            return f"added {value['id']} at {value['bdf']}"
        return f"{words[0]} " + (info(value) if words[0] == "shown" else counters(value))
    if words[0] == "taken":
        return "taken " + note(words[1:])[0]
    if words[0] == "answer":
        busy = f", block {words[3]} is pinned by {bank_caller(int(words[4]))}" if len(words) > 3 else ""
        return f"answer {ANSWERS[int(words[1])]} {STATES[int(words[2])]}{busy}"
    if words[0] == "restored":
        return f"restored an image of {size(len(words[1]) // 2)}"
    return text


def control(line, whole):
    """A control entry: its caller's number, its columns, its word, and its answer as it is printed."""
    caller, text = line.split(" ", 1)
    word = text.split(" ", 1)[0]
    if word in ("create", "add", "zone", "remove"):
        value, end = JSON.raw_decode(text, len(word) + 1)
        rest, reply = text[end:].split(" -> ", 1)
        call = json_call(word, value, rest.strip())
    else:
        head, reply = text.split(" -> ", 1)
        call = control_call(word, head.split(" ")[1:])
    told = control_reply(reply)
    return int(caller), [control_caller(int(caller)), cut(call, 160, whole), cut(told, 200, whole)], word, reply


# ---- bank calls


def bank_call(word, words, whole):
    if word == "shape":
        return f"shape {blocks(int(words[0]))}"
    if word in ("open", "seal", "unseal", "close"):
        return f"{word} {span(int(words[0]), int(words[1]))}"
    if word == "fill":
        return f"fill block {words[0]}, page {words[1]} with {sent(words[2], whole)}"
    if word == "read":
        return f"read block {words[0]} at {words[1]}, {count(int(words[2]), 'byte')}"
    if word == "write":
        return f"write block {words[0]} at {words[1]}, {sent(words[2], whole)}"
    if word == "pin":
        return f"pin number {words[0]}: {span(int(words[1]), int(words[2]))}"
    return f"unpin number {words[0]}" if word == "unpin" else word


def bank_reply(words, whole):
    if words[0] == "got":
        return f"got {sent(words[1], whole)}"
    if words[0] == "busy":
        return f"busy: block {words[1]} is pinned by {bank_caller(int(words[2]))}"
    if words[0] == "pages":
        return f"{count(int(words[1]), 'page')} ({size(int(words[1]) * 4096)})"
    return f"fault: block {words[1]} is not open" if words[0] == "fault" else " ".join(words)


def bank(line, whole):
    """A bank entry's columns."""
    head, reply = line.split(" -> ", 1)
    caller, word, *words = head.split(" ")
    return [bank_caller(int(caller)), bank_call(word, words, whole), bank_reply(reply.split(" "), whole)]
