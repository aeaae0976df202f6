// The connection to the gateway: requests and their answers, and lines that come by themselves. It comes back by
// itself.

import { dump, parse } from "./json.js";

export class Live {
  // `on` has functions for what comes: state(name), hello(it), people(names), city(tree, version), change(tree)
  constructor(token, on) {
    this.token = token; this.on = on;
    this.number = 0; this.asked = new Map();
    this.epoch = null; this.version = null; this.pause = 500; this.isLive = false;
    this.connect();
  }

  state(name) {
    this.isLive = name === "live";
    this.on.state(name);
  }

  connect() {
    this.state("connecting");
    const scheme = location.protocol === "https:" ? "wss" : "ws";
    const socket = this.socket = new WebSocket(`${scheme}://${location.host}/live`);
    socket.onopen = () => {
      socket.send(JSON.stringify({ token: this.token }));
      this.follow();
    };
    socket.onmessage = (message) => { for (const line of message.data.split("\n")) this.take(parse(line)); };
    socket.onclose = (event) => {
      const lost = new Error("The connection was lost; it isn't known whether this was done.");
      for (const { fail } of this.asked.values()) fail(lost);
      this.asked.clear();
      if (event.code === 4401) return this.state("unknown");
      this.state("lost");
      setTimeout(() => this.connect(), this.pause);
      this.pause = Math.min(this.pause * 2, 8000);
    };
  }

  follow() {
    const since = this.version === null ? {} : { epoch: this.epoch, version: this.version };
    this.socket.send(dump({ id: ++this.number, follow: since }));
  }

  take(it) {
    if ("changed" in it) {
      if (this.version !== null && it.changed.version <= this.version) return;
      this.version = it.changed.version;
      this.on.change(it.changed);
    } else if ("city" in it) {
      this.version = it.version;
      this.on.city(it.city, it.version);
    } else if ("hello" in it) {
      this.on.hello(it.hello);
      if (it.engine !== "up") this.state("engine");
    } else if ("people" in it) {
      this.on.people(it.people);
    } else if ("engine" in it) {
      this.state(it.engine === "up" ? "connecting" : "engine");
    } else if ("followed" in it) {
      this.pause = 500;
      this.state("live");
    } else if ("waits" in it) {
      this.asked.get(it.id)?.waits?.(it.waits);
    } else if (this.asked.has(it.id)) {
      const { done } = this.asked.get(it.id);
      this.asked.delete(it.id);
      done(it);
    }
    if ("epoch" in it && "city" in it) this.epoch = it.epoch;
  }

  // A promise that is kept once the changes up to a version have come.
  reached(version) {
    return new Promise((done) => {
      const isOver = () => this.version >= version || this.socket.readyState !== WebSocket.OPEN;
      const look = () => isOver() ? done() : setTimeout(look, 5);
      look();
    });
  }

  // The answer to a request, a promise.
  ask(members, waits) {
    return new Promise((done, fail) => {
      if (this.socket.readyState !== WebSocket.OPEN) return fail(new Error("There is no connection."));
      const id = ++this.number;
      this.asked.set(id, { done, fail, waits });
      this.socket.send(dump({ id, ...members }));
    });
  }
}
