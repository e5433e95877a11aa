; The words of english.grm. The names in \f are its templates.

; ---- Determiners, numbers, pronouns and names.

\w the
\c Det
\f <def> = yes

\w a
\c Det
\f <def> = no Singular

\w some
\c Det
\f <def> = no { Plural / Mass }

\w every
\c Det
\f <def> = no Singular

\w one
\c Number
\f Singular

\w two
\c Number
\f Plural

\w I
\c Pronoun
\f <head pred> = I Subject Sg First

\w me
\c Pronoun
\f <head pred> = I Object Sg First

; said of one or of many
\w you
\c Pronoun
\f <head pred> = you { Sg / Pl } Second

\w he
\c Pronoun
\f <head pred> = he Subject Sg3

\w him
\c Pronoun
\f <head pred> = he Object Sg3

\w she
\c Pronoun
\f <head pred> = she Subject Sg3

\w her
\c Pronoun
\f <head pred> = she Object Sg3

\w it
\c Pronoun
\f <head pred> = it Sg3

\w they
\c Pronoun
\f <head pred> = they Subject Pl Third

\w them
\c Pronoun
\f <head pred> = they Object Pl Third

\w who
\c Who
\f <head pred> = who Sg3

\w Arthur
\c Name
\f Sg3

\w Uther
\c Name
\f Sg3

\w 's
\c Possessive

; ---- Nouns.

\w dog
\c N
\f <head pred> = dog Singular

\w dogs
\c N
\f <head pred> = dog Plural

\w cat
\c N
\f <head pred> = cat Singular

\w cats
\c N
\f <head pred> = cat Plural

\w man
\c N
\f <head pred> = man Singular

\w men
\c N
\f <head pred> = man Plural

; one sheep, two sheep
\w sheep
\c N
\f <head pred> = sheep { Singular / Plural }

\w ball
\c N
\f <head pred> = ball Singular

\w park
\c N
\f <head pred> = park Singular

\w table
\c N
\f <head pred> = table Singular

\w telescope
\c N
\f <head pred> = telescope Singular

\w water
\c N
\f <head pred> = water Mass

; ---- Verbs, each with what it says, what it wants, and its form.

\w barks
\c V
\f <head pred> = bark Intransitive Third-Form

\w bark
\c V
\f <head pred> = bark Intransitive Plain-Form

\w barked
\c V
\f <head pred> = bark Intransitive Past

\w barking
\c V
\f <head pred> = bark Intransitive Ing-Form

\w sleeps
\c V
\f <head pred> = sleep Intransitive Third-Form

\w sleep
\c V
\f <head pred> = sleep Intransitive Plain-Form

\w slept
\c V
\f <head pred> = sleep Intransitive Past

\w sees
\c V
\f <head pred> = see Transitive Third-Form

\w see
\c V
\f <head pred> = see Transitive Plain-Form

\w saw
\c V
\f <head pred> = see Transitive Past

; drink water, or just drink: two readings of one word
\w drinks
\c V
\f <head pred> = drink { Transitive / Intransitive } Third-Form

\w drink
\c V
\f <head pred> = drink { Transitive / Intransitive } Plain-Form

\w drank
\c V
\f <head pred> = drink { Transitive / Intransitive } Past

\w gives
\c V
\f <head pred> = give Giving Third-Form

\w give
\c V
\f <head pred> = give Giving Plain-Form

\w gave
\c V
\f <head pred> = give Giving Past

; put, whatever the tense
\w puts
\c V
\f <head pred> = put Putting Third-Form

\w put
\c V
\f <head pred> = put Putting { Plain-Form / Past }

\w picks
\c V
\f <head pred> = pick With-Up Third-Form

\w pick
\c V
\f <head pred> = pick With-Up Plain-Form

\w picked
\c V
\f <head pred> = pick With-Up Past

\w looks
\c V
\f <head pred> = look Looking Third-Form

\w look
\c V
\f <head pred> = look Looking Plain-Form

\w thinks
\c V
\f <head pred> = think Thinking Third-Form

\w think
\c V
\f <head pred> = think Thinking Plain-Form

\w wants
\c V
\f <head pred> = want Wanting Third-Form

\w want
\c V
\f <head pred> = want Wanting Plain-Form

\w tells
\c V
\f <head pred> = tell Telling Third-Form

\w told
\c V
\f <head pred> = tell Telling Past

\w seems
\c V
\f <head pred> = seem Seeming Third-Form

\w seem
\c V
\f <head pred> = seem Seeming Plain-Form

; ---- Forms of `be`, by themselves and before another verb, and other auxiliaries.

\w am
\c Be
\f <head pred> = be Present Sg First

\w are
\c Be
\f <head pred> = be Present { Pl / Sg Second }

\w is
\c Be
\f <head pred> = be Third-Form

\w was
\c Be
\f <head pred> = be Past Sg { First / Third }

\w were
\c Be
\f <head pred> = be Past { Pl / Sg Second }

\w be
\c Be
\f <head pred> = be Base

\w am
\c Aux
\f <wants> = ing Present Sg First

\w are
\c Aux
\f <wants> = ing Present { Pl / Sg Second }

\w is
\c Aux
\f <wants> = ing Third-Form

\w was
\c Aux
\f <wants> = ing Past Sg { First / Third }

\w were
\c Aux
\f <wants> = ing Past { Pl / Sg Second }

\w does
\c Aux
\f <wants> = base Third-Form

\w do
\c Aux
\f <wants> = base Other-Form

\w did
\c Aux
\f <wants> = base Past

\w can
\c Aux
\f <wants> = base Present

\w will
\c Aux
\f <wants> = base <form> = finite <head tense> = future

; ---- The rest.

\w big
\c A
\f <head pred> = big <first> = none

\w old
\c A
\f <head pred> = old <first> = none

\w fond
\c A
\f <head pred> = fond <first cat> = PP <first prep> = of <head of> = <first head>

\w very
\c Degree

\w often
\c Adv
\f Frequency

\w loudly
\c Adv
\f Manner

\w today
\c Adv
\f Time

\w in
\c P

\w on
\c P

\w of
\c P

\w to
\c P

\w at
\c P

\w with
\c P

\w up
\c Particle

\w to
\c To

\w that
\c That

\w not
\c Not

\w and
\c Conj

\w or
\c Conj
