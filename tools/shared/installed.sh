# Read by `tools/install` and `tools/uninstall`: where the files of the suite stand on a system. Who reads this has set `top`,
# the folder of the repository, and `from`, the caller's.

# shellcheck disable=SC2154
prefix=${DESTDIR-}${PREFIX-/usr/local}
case $prefix in
"" | /*) ;;
*) prefix=$from/$prefix ;;
esac
documents=$prefix/share/doc/dsc

# Names each file of the repository that is installed, and the folder that it is put into. Documents keep their places to each
# other, so that their links hold.
list_installed() (
    cd "$top" || exit
    for file in man/*.1; do
        echo "$file $prefix/share/man/man1"
    done
    for file in dsc-listen dsc-json dsc-report dsc-bench; do
        echo "tools/$file $prefix/bin"
    done
    for file in tools/listen/*.py tools/json_lines/*.py tools/report_pages/*.py tools/bench_vectors/*.py \
        tools/shared/__init__.py tools/shared/elements.py tools/shared/symbols.py; do
        folder=${file#tools/}
        echo "$file $prefix/share/dsc/${folder%/*}"
    done
    echo "tools/completion.bash $prefix/share/bash-completion/completions"
    for file in README.md VERSION CHANGELOG.md docs/*.md docs/*.json docs/pictures/*.svg examples/* examples/slurm/* examples/night/* \
        tools/split_groups tools/explain tools/draw_receptions tools/soft_bits tools/make_exchange \
        tools/shared/__init__.py tools/shared/elements.py tools/shared/pictures.py tools/shared/program.py tools/shared/symbols.py; do
        [ -f "$file" ] || continue
        folder=$documents/$file
        echo "$file ${folder%/*}"
    done
)
