# A copy of the project in $work/copy in which scripts/build-for builds from a module that is kept in
# $module, without a proof, and may be changed. Sourced with $root, $work and $module set.
mkdir -p "$work/stub/bin" "$work/copy/crates/yelansub_c"
cp -R "$root/scripts" "$root/include" "$work/copy"
real=$(rt doc) real=${real%/*}
clang=$real/toolchain/bin/clang
# The options for LLVM that were kept with the module.
options=$(cat "$module.options" 2> /dev/null || true)
# The kit as links, but for its rt.
cat > "$work/stub/bin/rt" <<END
#!/bin/sh
case \$1 in
doc) echo "$work/stub/START-HERE.md" ;;
version) cat "$real/KIT-ID" ;;
lib) eval "\$lib" ;;
*) exit 2 ;;
esac
END
chmod +x "$work/stub/bin/rt"
for file in "$real"/* "$real"/bin/*; do
    [ -e "$work/stub/${file#"$real/"}" ] || ln -s "$file" "$work/stub/${file#"$real/"}"
done
# What stands in for `rt lib`: it compiles the module by the clang of the kit that it lies in.
replayed='"${0%/*}/../toolchain/bin/clang" --version $options "$module" > /dev/null'
lib=$replayed
export real module options lib
build_for() { PATH="$work/stub/bin:$PATH" "$work/copy/scripts/build-for" "$@"; }
