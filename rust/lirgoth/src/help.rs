//! What `--help` prints.

pub const ALL: &str = "\
lirgoth: a site's network, its plan and its drills, for the installer

  lirgoth card CHART [--hex | --site SITE]   the card of a link chart
  lirgoth plan CHART --site SITE             card and plan of a link chart
  lirgoth plan SITE                          a plan for the card
  lirgoth chart SITE                         the link chart of a card
  lirgoth print SITE [--hex]                 the card, clean: each link once, in order
  lirgoth explain SITE                       can the offices agree, is the plan accepted,
                                             what does each office show
  lirgoth check SITE                         is the plan accepted: if so, the offices can
                                             agree, and no other check is needed
  lirgoth load SITE                          how many routes each office relays
  lirgoth cut SITE --from A,B --to C         separate routes between offices, or who is
                                             in their way
  lirgoth drill SITE --inputs 11010          a run without a run.in
  lirgoth drill SITE --every                 every set of failing offices, every kind of lie
  lirgoth picture SITE                       the network as an SVG picture
  lirgoth VERB --help                        more on one of these
  lirgoth --version                          version of the program and of the library

A SITE is a folder with network.card, network.plan and run.in, as far as they are there;
names of its offices come from network.chart. docs/FORMATS.md says what the files hold.

Status: 0 answered; 1 refused, or the network has a bad split; 2 the command line is
wrong, or a file is missing or cannot be read, which is then named.
";

pub const CARD: &str = "\
lirgoth card CHART [--hex | --site SITE]

Writes the card of a link chart, on standard output as bytes.
  --hex        as hexadecimal digits, for the eye
  --site SITE  into the folder SITE as network.card, with the chart beside it as
               network.chart; the folder is made where it is not there

A chart is plain text:

  # everything after # is a comment
  offices 5               2 to 8 offices, 0 to 4; or their names with commas between:
                          offices Geneva, Oslo, Lima, Pusan, Dakar
  may fail 1              how many of them may fail, 0 to 2
  0 -> 1                  a link from office 0 to office 1
  1 <-> 2                 links both ways
  Geneva -> Oslo, Lima    names and lists of receivers work too

A link given again, as for twin cables, is one link, and the card has it once. Each
mistake is named by its line.
";

pub const PLAN: &str = "\
lirgoth plan CHART --site SITE [--replace]
lirgoth plan SITE [--replace]

Writes a route plan: that of a link chart into the folder SITE as network.plan, with the
card and the chart beside it as by the verb card; or that of SITE/network.card. The plan
check accepts it, and no plan that it accepts for this network is shorter.
  --site SITE  the folder for card, chart and plan; it is made where it is not there
  --replace    writes over a network.plan that is there and is another plan; else it is
               left as it is, and the status is 2

Where the network has a bad split no plan can help. Then none is written, and the split is
told as by explain.
";

pub const CUT: &str = "\
lirgoth cut SITE --from OFFICES --to OFFICE [--without OFFICES]

Shows routes from some offices of SITE/network.card to one that share nothing but this one:
f+1 of them if f may fail, each from an office of its own. Where there are not so many, it
shows the offices, at most f, of which every route meets one. An office that a route comes
from counts as met.
  --from OFFICES     where routes may begin, by number or name with commas between: 2 or
                     0,Oslo
  --to OFFICE        where they end
  --without OFFICES  at most f offices that no route may meet, as those that fail
";

pub const CHART: &str = "\
lirgoth chart SITE

Writes the link chart of SITE/network.card on standard output, with the names of
SITE/network.chart where that is there and of the same network.
";

pub const PRINT: &str = "\
lirgoth print SITE [--hex]

Writes the clean card of SITE/network.card, on standard output as bytes: the same network,
with each link once, ascending by the office that it comes from and then by the one that it
leads to. Two cards of one network are printed alike, and a clean card stays as it is.
  --hex  as hexadecimal digits, for the eye

To put it in the place of the card, write it to another file first: a shell that is told
> SITE/network.card empties that file before it is read.
";

pub const EXPLAIN: &str = "\
lirgoth explain SITE

Says in words whether the offices of SITE/network.card can agree, and else which of them
could be split and why; whether SITE/network.plan is accepted; and what each office shows
after the run of SITE/run.in. A refusal comes with its number, its place and what stands
there. A file that is missing is named on standard error, and the status is then 2.

On a two-way site, where each link has a return, it also says what the older rule says: if
f may fail, there must be at least 3f+1 offices, and at least 2f+1 of them must be taken
away before the rest falls apart. Both numbers are told, with the offices that leave the
rest apart. The rule holds exactly where there is no bad split.
";

pub const CHECK: &str = "\
lirgoth check SITE

Says whether SITE/network.plan is accepted for SITE/network.card, and makes no other test. An
accepted plan shows that the network has no bad split: this is proved, for every card and
every plan. So the offices can agree, and explain need not be asked. Where f may fail, and f
is at least 1, it shows too that there are at least 3f+1 offices.

A refusal comes with its number, its place and what stands there. By itself a refused plan
says nothing about the network: it may have a bad split, or the plan alone may be wrong, and
explain tells which. A file that is missing is named on standard error, and the status is
then 2.
";

pub const LOAD: &str = "\
lirgoth load SITE

Says how many routes of SITE/network.plan each office relays, that is, stands on as neither
source nor receiver, and which part of all relaying places that is: a line for each office,
the widest relay first. A route has as many relaying places as offices between its source
and its receiver. Refusals, and a bad split, are told as by explain.
";

pub const DRILL: &str = "\
lirgoth drill SITE --inputs BITS [--faulty OFFICES] [--lies LIES] [--write]
lirgoth drill SITE --every [--inputs BITS] [--lies random:SEED]

Runs SITE's plan without a run.in and says what each office shows.
  --inputs BITS     what each office enters, 0 open or 1 closed: 11010 for five offices
  --faulty OFFICES  the offices that fail, by number or name with commas between: 2 or
                    0,Oslo; none where this is not given
  --lies LIES       how they lie:
                      split        each says closed to the first half of the sound offices
                                   and open to the others, and turns round what it relays;
                                   this is what they do without --lies
                      turned       each turns round all that it sends
                      silent       nothing that they send arrives, which counts as open
                      random:SEED  anything arrives, the same for the same number SEED
  --write           stores the run as SITE/run.in, in place of one that is there
  --every           tries every set of at most f failing offices with each kind of lie,
                    for BITS or else for all lists of inputs, and says whether all sound
                    offices agreed in all runs
";

pub const PICTURE: &str = "\
lirgoth picture SITE

Writes the network of SITE/network.card as an SVG picture on standard output: offices in
a ring, one-way links as arrows, two-way links as plain lines. Where the network has a bad
split its sets are coloured and explained, and the status is 1. On a two-way site that has
none, offices that leave the rest apart when they are taken away are coloured and have the
letter K: as few as can be, and none where all links are there.

Where SITE/network.plan is accepted, an office is the larger the more routes it relays, and
their number stands beside it. A plan that is refused, or cannot be read, is told on standard
error, and the picture is drawn without it.
";
