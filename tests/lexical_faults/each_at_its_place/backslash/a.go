a
\