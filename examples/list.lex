; Entries with glosses, and a field of the user's own, which is ignored.
\id 1
    a note that goes over
    two lines
\w the
\c the
\g definite article

\w and
\c and

\w apple
\c Noun
\g Apfel

\w pear
\c Adj
\c Noun        
\g Birne
   (Frucht)
