# Plots the ratios of our throughput to that of the best peer, one line for each row of the table and one point for each
# kind of text: from the file `values`, those of `size` bytes, ours built for `cpu`, to `picture`. It has no background,
# middle tones and only filled marks, so that it suits light and dark pages. A call that ends at the first bytes (above
# 250 GB/s of source) has no point. The title names the `commit`.
set terminal svg noenhanced size 1000,1330 font 'sans-serif,13'
set encoding utf8
set output picture
set datafile separator '\t'
filtered = "awk -F'\t' -v OFS='\t' -v size=" . size . " 'NR > 1 { if (!seen[$1]++) n++; if ($3 == size && $4 < 250) print n, $2, $7 }' " . values
stats '< ' . filtered using 3 nooutput
tone = '#7a7a7a'
set label 'Our throughput at commit ' . commit . ', built for ' . cpu . ', on ' . bytes . ' of text' at screen 0.5, 0.988 center textcolor rgb tone
set label "next to that of the fastest of std, encoding_rs, simdutf8 and simdutf's kernel of the same width" \
    at screen 0.5, 0.974 center textcolor rgb tone
set border 1 linecolor rgb tone
set logscale x 2
set xrange [STATS_min * 0.93 : STATS_max * 1.08]
set xlabel '← slower     times as fast as the fastest peer     faster →' textcolor rgb tone
set xtics ('⅛' 0.125, '¼' 0.25, '½' 0.5, '1' 1, '2' 2, '4' 4, '8' 8, '16' 16, '32' 32, '64' 64) nomirror textcolor rgb tone
set grid x y linecolor rgb '#b07a7a7a' linetype 1 linewidth 0.7
set arrow from 1, graph 0 to 1, graph 1 nohead linewidth 2 linecolor rgb tone back
set lmargin at screen 0.32
set rmargin at screen 0.985
set tmargin at screen 0.895
set bmargin at screen 0.05
set key at screen 0.94, 0.963 horizontal maxrows 3 Left reverse textcolor rgb tone samplen 1 width 1
# readable names, with no spaces, which would separate words
names = system("awk -F'\t' 'NR > 1 && !seen[$1]++ { print $1 }' " . values . " | sed 's/^convert_//; s/iso_2022_jp/ISO-2022-JP/; s/ascii/ASCII/g; s/utf/UTF-/g; s/basic_latin/Basic_Latin/g; s/latin1/Latin1/g; s/str/text/; s/bidi/right-to-left/; s/[_ ]/\302\240/g'")
count = words(names)
set yrange [count + 0.6 : 0.4]
set ytics () nomirror scale 0 textcolor rgb tone
do for [i = 1:count] { set ytics add (word(names, i) i) }
kinds = system("awk -F'\t' 'NR > 1 && !seen[$2]++ { gsub(/ /, \"\302\240\", $2); print $2 }' " . values)
# seven colours and five shapes, so that 35 kinds in a row have other marks
colours = '#2f7fd0 #d98200 #009e73 #d0529a #8a6fd1 #c8442f #8a8a2a'
shapes = '7 5 9 13 11'
colour(i) = word(colours, (i - 1) % 7 + 1)
shape(i) = 0 + word(shapes, (i - 1) % 5 + 1)
place(i) = 0.7 * ((i - 1.0) / (words(kinds) - 1) - 0.5)
of_kind(i) = sprintf("< %s | awk -F'\t' -v kind='%s' '{ gsub(/ /, \"\302\240\", $2) } $2 == kind { print $3 \"\t\" $1 }'", filtered, word(kinds, i))
plot for [i = 1:words(kinds)] of_kind(i) using 1:($2 + place(i)) with points \
    pointtype shape(i) pointsize 0.7 linecolor rgb colour(i) title word(kinds, i)
