\w dogs
\c N
\f Third Plural
