// What the server counts, in Prometheus' text form.

const escaped = value => String(value).replace(/[\\"\n]/g, it => (it == "\n" ? "\\n" : `\\${it}`))

const labelsOf = labels => {
  const pairs = Object.entries(labels).map(([name, value]) => `${name}="${escaped(value)}"`)
  return pairs.length ? `{${pairs.join(",")}}` : ""
}

/** A number that only rises, one for each set of labels. */
class Counter {
  #values = new Map()

  add(by = 1, labels = null) {
    const key = labels ? labelsOf(labels) : ""
    this.#values.set(key, (this.#values.get(key) ?? 0) + by)
  }

  lines(name) { return [...this.#values].map(([labels, value]) => `${name}${labels} ${value}`) }
}

/** A number that is asked for when it is read. */
class Gauge {
  #read

  constructor(read) { this.#read = read }

  lines(name) { return [`${name} ${this.#read()}`] }
}

/** How often a time in seconds was at most so long. */
class Histogram {
  #bounds
  #counts
  #sum = 0
  #count = 0

  constructor(bounds) {
    this.#bounds = bounds
    this.#counts = [...bounds.map(() => 0), 0]
  }

  // (each is counted at the first bound that it keeps)
  add(seconds) {
    let at = 0
    while (seconds > this.#bounds[at]) at++
    this.#counts[at]++
    this.#sum += seconds
    this.#count++
  }

  lines(name) {
    let sum = 0
    const buckets = this.#bounds.map((bound, i) => `${name}_bucket{le="${bound}"} ${sum += this.#counts[i]}`)
    return [...buckets, `${name}_bucket{le="+Inf"} ${this.#count}`, `${name}_sum ${this.#sum}`, `${name}_count ${this.#count}`]
  }
}

const TIMES = [0.0005, 0.001, 0.0025, 0.005, 0.01, 0.025, 0.05, 0.1, 0.25, 0.5, 1, 2.5, 5, 10]

/** All that one server counts. */
export class Metrics {
  #all = []

  #make(name, kind, help, metric) {
    this.#all.push({name: `gezhufet_${name}`, kind, help, metric})
    return metric
  }

  /** @returns {Counter} */
  counter(name, help) { return this.#make(name, "counter", help, new Counter()) }

  /** @param {() => number} read */
  gauge(name, help, read) { return this.#make(name, "gauge", help, new Gauge(read)) }

  /** @returns {Histogram} */
  times(name, help) { return this.#make(name, "histogram", help, new Histogram(TIMES)) }

  /** The text that `GET /metrics` gives. */
  text() {
    return this.#all.map(({name, kind, help, metric}) =>
      `# HELP ${name} ${help}\n# TYPE ${name} ${kind}\n${metric.lines(name).map(line => `${line}\n`).join("")}`).join("")
  }
}

/** The metrics that the parts of a server share. */
export function serverMetrics() {
  const metrics = new Metrics()
  return {
    metrics,
    submissions: metrics.counter("submissions_total", "Submissions by what the engine answered."),
    steps: metrics.counter("steps_accepted_total", "Steps that were accepted from this server's connections."),
    pushed: metrics.counter("entries_pushed_total", "Entries of logs that were pushed to connections."),
    received: metrics.counter("received_bytes_total", "Bytes of messages that came."),
    sent: metrics.counter("sent_bytes_total", "Bytes of messages that were sent, with their frames' heads."),
    errors: metrics.counter("errors_total", "Errors that were told to clients, by their code."),
    closed: metrics.counter("connections_closed_total", "Connections that ended, by the code of their close."),
    opened: metrics.counter("connections_opened_total", "Connections that came."),
    paused: metrics.counter("readers_paused_total", "How often a connection read too slowly to be told more."),
    answered: metrics.times("submission_seconds", "The time until a submission had its answer, the store included."),
  }
}
