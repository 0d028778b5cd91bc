# Writes a setup of so many tenants. Of each, alice is the peer that is added last, bob the one before her, and the route
# to bob and the rate from alice to bob come last too: what a walk from the beginning finds at its end.
#
# Set by -v: tenants; peers, routes, rates and journal of each.

function named(i) { return i == peers - 1 ? "alice" : i == peers - 2 ? "bob" : sprintf("p%03d", i) }

function peer(name) {
  printf "[[tenant.peer]]\nname = \"%s\"\nrole = \"peer\"\ntoken = \"tok-%s\"\n", name, name
  printf "url = \"http://127.0.0.1/ilp\"\nout_token = \"out-%s\"\nasset = \"USD\"\nscale = 2\n", name
  printf "cap = 1000000000000\nceiling = 4000000000000000000\ncredit = 4000000000000000000\n"
  printf "burst = 1000000\nper_second = 1000000\n"
}

function route(name) { printf "[[tenant.route]]\nprefix = \"g.acme.%s\"\npeer = \"bob\"\n", name }

function rate(from, to) {
  printf "[[tenant.rate]]\nfrom = \"%s\"\nto = \"%s\"\nnum = 3\nden = 2\n", from, to
  left--
}

function tenant(name,    i, j) {
  printf "[[tenant]]\nname = \"%s\"\naddress = \"g.%s\"\nadmin = \"root\"\njournal = %d\n", name, name, journal
  for (i = 0; i < peers; i++) peer(named(i))
  for (i = 1; i < routes; i++) route(sprintf("r%04d", i))
  route("bob")
  # Of the other pairs first those that name alice or bob, as the pair in use does.
  left = rates - 1
  for (i = 0; i < peers - 2 && left > 0; i++) rate("alice", named(i))
  for (i = 0; i < peers - 2 && left > 0; i++) rate(named(i), "bob")
  for (i = 0; i < peers - 2; i++)
    for (j = 0; j < peers - 2 && left > 0; j++)
      if (i != j) rate(named(i), named(j))
  rate("alice", "bob")
}

BEGIN {
  printf "version = 1\nstart = 1893456000000\n"
  for (k = 1; k < tenants; k++) tenant(sprintf("t%02d", k))
  tenant("acme")
}
