# Writes a script, and to the file `want` how many packets it has and what is to be printed for it, in the words of
# seen.awk. All packets are alice's, except those of `spread`, and those that go on go to bob.
#
# Set by -v: want; tenants, peers and journal, and for `spread` routes, as in the setup; and
#   kind    strangers, bad, full, passed (forwarded and fulfilled), spread (the same, of all tenants and peers, by all routes),
#           mix, balances or rolls
#   n       how many packets, or commands; about, where periods are rounded
#   data    how many bytes of data each packet has
#   ticks   how many ticks follow each packet
#   held    how many packets are held open by workers of their own for the length of each period
#   bare    1: the same script without its packets, or commands

# A tenant by its place, from 1.
function named(k) { return k < tenants ? sprintf("t%02d", k) : "acme" }

function step(line, word) {
  print line
  if (word != "") wanted[word]++
}

# Moments are counted from the start.
function at(moment) { return sprintf("%.0f", 1893456000000 + moment) }

# The 17 digits of a moment in January 2030, in hexadecimal.
function digits(moment,    seconds, text) {
  seconds = int(moment / 1000)
  text = sprintf("203001%02d%02d%02d%02d%03d", 1 + int(seconds / 86400), int(seconds / 3600) % 24, int(seconds / 60) % 60,
    seconds % 60, moment % 1000)
  gsub(/./, "3&", text)
  return text
}

function times(text, count,    all) {
  for (all = ""; count > 0; count = int(count / 2)) {
    if (count % 2) all = all text
    text = text text
  }
  return all
}

function counted(size) { return size < 128 ? sprintf("%02x", size) : sprintf("82%04x", size) }

function prepare(amount, expiry, to, size,    contents) {
  contents = amount digits(expiry) condition counted(length(to) / 2) to counted(size) times("5a", size)
  return "0c" counted(length(contents) / 2) contents
}

function load(worker, token, frame, word) {
  packets++
  step("load " worker " " tenant " tok-" token " " frame, word)
}

function decide(worker, word) { step("decide " worker " " at(now), word) }

function answer(worker, frame, word) { step("answer " worker " " at(now) " " frame, word) }

function forward(worker, frame) {
  load(worker, "alice", frame, "loaded")
  decide(worker, "send")
}

function refuse(frame, word) {
  load(0, "alice", frame, "loaded")
  decide(0, word)
}

function tick() { step("tick " tenant " " at(now), "ticked") }

function command(text, word) {
  step("do " tenant " " at(now) " " text, word)
  if (text == "balances" || text == "roll") wanted["balance"] += peers
}

function strangers(    i) {
  for (i = 0; i < n; i++) {
    load(0, "nobody", usual, "loaded")
    decide(0, "stranger")
  }
}

function bad(    i) {
  for (i = 0; i < n; i++) load(0, "alice", substr(usual, 1, length(usual) - 2), "bad")
}

function full(    i) {
  for (i = 0; i < journal; i++) tick()
  if (!bare) for (i = 0; i < n; i++) refuse(usual, "T03")
}

# Periods that fill the journal as far as whole packets and their ticks do, each then rolled.
function passed(    each, done, i, w, j) {
  for (done = 0; done < n; ) {
    each = int(journal / (2 + ticks)) - held
    if (each > n - done - held) each = n - done - held
    if (each < 1) each = 1
    if (!bare) {
      for (w = 1; w <= held; w++) {
        forward(w, usual)
        for (j = 0; j < ticks; j++) tick()
      }
      for (i = 0; i < each; i++) {
        now++
        forward(0, usual)
        answer(0, fulfill, "fulfilled")
        for (j = 0; j < ticks; j++) tick()
      }
      for (w = 1; w <= held; w++) answer(w, fulfill, "fulfilled")
    }
    done += each + held
    command("roll", "rolled")
  }
}

# Each tenant's packets in turn, of all peers but bob, which have a rate to him. Periods end as those of `passed` do.
function spread(    each, i, k, route, digit, to, from) {
  each = int(journal / 2)
  for (i = 0; i < n; i++) {
    tenant = named(i % tenants + 1)
    k = int(i / tenants)
    route = sprintf("%04d", 1 + k * 7 % (routes - 1))
    to = "672e61636d652e72"
    for (digit = 1; digit <= 4; digit++) to = to "3" substr(route, digit, 1)
    if (!bare) {
      now++
      from = k % (peers - 1)
      load(0, from ? sprintf("p%03d", from - 1) : "alice", prepare("00000000000003e8", 600000, to "2e78", data), "loaded")
      decide(0, "send")
      answer(0, fulfill, "fulfilled")
    }
    if (k % each == each - 1) command("roll", "rolled")
  }
}

# Sixteen packets a round, and fewer than 34 entries.
function mix(    i, k, frame) {
  for (i = 0; i < n / 16; i++) {
    frame = prepare("00000000000003e8", now + 600000, bob, 0)
    load(0, "nobody", frame, "loaded")
    decide(0, "stranger")
    load(0, "alice", substr(frame, 1, length(frame) - 2), "bad")
    for (k = 0; k < 4; k++) {
      now++
      forward(0, frame)
      answer(0, fulfill, "fulfilled")
    }
    forward(0, frame)
    answer(0, "0e1546303005672e626f620a6e6f7420666f72206d6500", "F00")
    forward(0, frame)
    answer(0, "fault", "T01")
    forward(0, frame)
    answer(0, "0d21" times("00", 31) "0100", "F05")
    refuse(prepare("00000000000003e8", now + 600000, "672e6f746865722e78", 0), "F02")
    refuse(prepare("000001d1a94a2000", now + 600000, bob, 0), "F08")
    refuse(prepare("00000000000003e8", now, bob, 0), "R02")
    # Two that await their answers at once.
    forward(0, frame)
    forward(1, frame)
    answer(0, fulfill, "fulfilled")
    answer(1, fulfill, "fulfilled")
    # An answer that is late, and one that is late after a tick.
    forward(0, frame)
    now += 31000
    answer(0, fulfill, "R00")
    forward(0, frame)
    now += 31000
    tick()
    answer(0, fulfill, "R00")
    command("settle in alice 1000", "ok")
    command("peer limits bob 1000000000000 4000000000000000000 4000000000000000000", "ok")
    command("rate set alice bob 3 2", "ok")
    command("route add g.acme.new bob", "ok")
    command("route remove g.acme.new", "ok")
    command("balances", "ok")
    if (i % 30 == 29) command("roll", "rolled")
  }
}

function balances(    i) {
  for (i = 0; i < n; i++) command("balances", "ok")
}

# Each tenant's journal is filled by ticks or by packets, and then each is rolled.
function rolls(    i, k) {
  for (k = 1; k <= tenants; k++) {
    tenant = named(k)
    for (i = 0; i < journal; i += ticks ? 1 : 2) {
      if (ticks) tick()
      else {
        now++
        forward(0, usual)
        answer(0, fulfill, "fulfilled")
      }
    }
  }
  packets = 0
  for (k = 1; k <= tenants && !bare; k++) {
    tenant = named(k)
    command("roll", "rolled")
  }
}

BEGIN {
  condition = "66687aadf862bd776c8fc18b8e9f8e20089714856ee233b3902a591d0d5f2925"
  fulfill = "0d21" times("00", 33)
  bob = "672e61636d652e626f622e78"
  tenant = named(tenants)
  usual = prepare("00000000000003e8", 600000, bob, data)
  if (kind == "full") full()
  else if (kind == "passed") passed()
  else if (kind == "spread") spread()
  else if (kind == "rolls") rolls()
  else if (!bare) {
    if (kind == "strangers") strangers()
    else if (kind == "bad") bad()
    else if (kind == "mix") mix()
    else if (kind == "balances") balances()
  }
  print (packets ? packets : n) > want
  for (word in wanted) print word, wanted[word] > want
}
