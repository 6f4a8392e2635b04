-- Refuses files that were all loaded completely before: the files that continue after the last row are missing, or were numbered again.
\if :is_any
\else
SELECT historian.none_goes_on(historian.stream_of(:'plant', :'stream'));
\endif
