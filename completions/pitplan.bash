# Completion of pitplan for bash, written by `pitplan completion bash`.
_pitplan_words() {
    mapfile -t COMPREPLY < <(compgen -W "$1" -- "${COMP_WORDS[COMP_CWORD]}")
}

_pitplan_paths() {
    local word=${COMP_WORDS[COMP_CWORD]}
    compopt -o filenames 2> /dev/null
    case $1 in
    file) mapfile -t COMPREPLY < <(compgen -f -- "$word") ;;
    folder) mapfile -t COMPREPLY < <(compgen -d -- "$word") ;;
    project) mapfile -t COMPREPLY < <(compgen -f -X '!*.toml' -- "$word"; compgen -d -- "$word") ;;
    esac
}

_pitplan_keys() {
    compopt -o nospace 2> /dev/null
    _pitplan_words "title= output.folder= table.file= table.x= table.y= table.z= table.density= table.volume= table.id= table.rock_type= table.domain= table.separator= table.decimal= table.encoding= table.header_row= table.first_row= table.empty= table.class= table.tonnes= table.missing_blocks= table.reblock= table.topography= table.null_values= table.nulls= table.map= table.calculate= table.filter= table.clip= table.cell_size= table.rock_percent= table.ore_percent= grid.size= grid.tolerance= grid.azimuth= economics.currency= economics.mining_cost= economics.mining_cost_per_bench= economics.mining_cost_reference= economics.mining_cost_by_elevation= economics.processing_cost= economics.decimals= economics.cutoff= economics.mining_recovery= economics.dilution= economics.royalty= economics.royalty_per_tonne= economics.fixed_cost_per_year= economics.capex= economics.mcaf= economics.pcaf= classes= metals.1.name= metals.1.column= metals.1.unit= metals.1.price= metals.1.selling_cost= metals.1.recovery= metals.1.tail_grade= metals.1.prices= metals.1.price_per= metals.1.smelter= processes.1.name= processes.1.cost= processes.1.recovery= processes.1.capacity= processes.1.feed= processes.1.accepts= slopes.precedence_benches= slopes.never_steeper= slopes.domains= shells.revenue_factors= shells.selected= shells.discount_rate= shells.processing_capacity= shells.mining_capacity= shells.discounting= shells.specified= haulage.pit_exit= haulage.ramp_gradient= haulage.cost= haulage.ex_pit_distance= constraints.must_mine= constraints.exclude= constraints.as_mined= constraints.topography= constraints.areas= pushbacks.count= pushbacks.tonnes= pushbacks.revenue_factors= pushbacks.ultimate_pit= pushbacks.min_mining_width= pushbacks.min_bottom_width= pushbacks.mining_cost_added= schedule.processing_capacity= schedule.mining_capacity= schedule.vertical_advance_rate= schedule.bench_lag= schedule.ramp_up= schedule.years= schedule.bins= schedule.milp= schedule.stockpiles= schedule.max_metal_per_year= schedule.minimum= schedule.limits= schedule.feed= dumps.1.name= dumps.1.cost= dumps.1.capacity= dumps.1.accepts= cash_flow.discount_rates= cash_flow.closure_cost= cash_flow.tax_rate= cash_flow.depreciation= price_paths.count= price_paths.seed= price_paths.metals= sensitivity.changes= sensitivity.parameters= sensitivity.pairs= sensitivity.skin= sensitivity.largest_increment= sensitivity.hill= scenarios.realisations= scenarios.columns= scenarios.prices= figures.levels= figures.north= figures.east= figures.metal= figures.formats= periods.1.years= periods.1.period_months= periods.1.mining_capacity= periods.1.processing_capacity= periods.1.capacity= periods.1.minimum= periods.1.feed= periods.1.stockpiles= periods.1.dumps= periods.1.prices= periods.1.mining_cost_factor= periods.1.processing_cost_factor= periods.1.selling_cost_factor= periods.1.fixed_cost_per_year= periods.1.capex="
}

_pitplan() {
    local command=${COMP_WORDS[1]} before=${COMP_WORDS[COMP_CWORD - 1]} options="" valued="" given=0 k
    COMPREPLY=()
    if [ "$COMP_CWORD" -eq 1 ]; then
        _pitplan_words "init check schema completion doctor prepare shells pit pushbacks schedule sensitivity compare scenarios gather scenario report view export audit verify convert serve --version -h --help"
        return
    fi
    case "$command $before" in
    "init --out" | "view --out" | "export --out" | "serve --socket")
        _pitplan_paths file && return
        ;;
    "init --role" | "pit --revenue-factor" | "pit --rf" | "sensitivity --on" | "sensitivity --workers" | "scenarios --on" | "scenarios --workers" | "scenarios --revenue-factor" | "scenarios --rf" | "gather --revenue-factor" | "gather --rf" | "export --revenue-factor" | "export --rf" | "audit --revenue-factor" | "audit --rf" | "serve --port" | "serve --host")
        return
        ;;
    "check --set" | "prepare --set" | "shells --set" | "pit --set" | "pushbacks --set" | "schedule --set" | "sensitivity --set" | "scenarios --set")
        _pitplan_keys && return
        ;;
    "prepare --out" | "shells --out" | "pit --out" | "pushbacks --out" | "schedule --out" | "sensitivity --out" | "compare --out" | "scenarios --out" | "report --sensitivity" | "audit --out" | "convert --out" | "serve --inputs")
        _pitplan_paths folder && return
        ;;
    "shells --solver" | "pit --solver" | "pushbacks --solver" | "schedule --solver" | "sensitivity --solver" | "scenarios --solver")
        _pitplan_words "library program" && return
        ;;
    "schedule --by")
        _pitplan_words "pushback block" && return
        ;;
    "scenarios --by")
        _pitplan_words "pit block" && return
        ;;
    "export --to")
        _pitplan_words "table csv xlsx vti vtu omf dm dxf stl obj gpkg str lines" && return
        ;;
    "export --of")
        _pitplan_words "revenue_factor pushback year" && return
        ;;
    "export --surface")
        _pitplan_words "pit ground" && return
        ;;
    esac
    case $command in
    init) options="--out --role --replace --figures --json -h --help" valued="--out --role" ;;
    check) options="--set --quiet -h --help" valued="--set" ;;
    schema) options="-h --help" valued="" ;;
    completion) options="-h --help" valued="" ;;
    doctor) options="--json -h --help" valued="" ;;
    prepare) options="--set --out --quiet -h --help" valued="--set --out" ;;
    shells) options="--set --out --quiet --no-verify --json --no-figures --solver -h --help" valued="--set --out --solver" ;;
    pit) options="--set --out --quiet --no-verify --json --solver --revenue-factor --rf -h --help" valued="--set --out --solver --revenue-factor --rf" ;;
    pushbacks) options="--set --out --quiet --no-verify --json --no-figures --solver -h --help" valued="--set --out --solver" ;;
    schedule) options="--set --out --quiet --no-verify --json --no-figures --solver --by --certificate -h --help" valued="--set --out --solver --by" ;;
    sensitivity) options="--set --out --quiet --no-verify --json --no-figures --solver --on --workers -h --help" valued="--set --out --solver --on --workers" ;;
    compare) options="--out --quiet --json --no-figures --no-verify --no-bridge -h --help" valued="--out" ;;
    scenarios) options="--set --out --quiet --no-verify --no-figures --solver --by --on --workers --revenue-factor --rf --partial -h --help" valued="--set --out --solver --by --on --workers --revenue-factor --rf" ;;
    gather) options="--quiet --no-verify --no-figures --revenue-factor --rf --partial -h --help" valued="--revenue-factor --rf" ;;
    scenario) options="--quiet -h --help" valued="" ;;
    report) options="--quiet --sensitivity -h --help" valued="--sensitivity" ;;
    view) options="--out --quiet -h --help" valued="--out" ;;
    export) options="--out --quiet --to --revenue-factor --rf --of --surface --smooth -h --help" valued="--out --to --revenue-factor --rf --of --surface" ;;
    audit) options="--out --quiet --revenue-factor --rf -h --help" valued="--out --revenue-factor --rf" ;;
    verify) options="-h --help" valued="" ;;
    convert) options="-h --help --out" valued="--out" ;;
    serve) options="--port --no-browser --inputs --host --socket -h --help" valued="--port --inputs --host --socket" ;;
    esac
    # Arguments before this one: words that are neither options nor their values, which bash divides at = and :.
    for ((k = 2; k < COMP_CWORD; k++)); do
        case ${COMP_WORDS[k]} in
        = | :) k=$((k + 1)) ;;
        -*) [[ " $valued " != *" ${COMP_WORDS[k]} "* ]] || k=$((k + 1)) ;;
        *) given=$((given + 1)) ;;
        esac
    done
    case "${COMP_WORDS[COMP_CWORD]}" in
    -*) ;;
    *)
        case "$command $given" in
        "init "0) _pitplan_paths file && return ;;
        "check "0) _pitplan_paths project && return ;;
        "completion "0) _pitplan_words "bash zsh fish" && return ;;
        "prepare "0) _pitplan_paths project && return ;;
        "shells "0) _pitplan_paths project && return ;;
        "pit "0) _pitplan_paths project && return ;;
        "pushbacks "0) _pitplan_paths project && return ;;
        "schedule "0) _pitplan_paths project && return ;;
        "sensitivity "0) _pitplan_paths project && return ;;
        "compare "*) _pitplan_paths folder && return ;;
        "scenarios "0) _pitplan_paths project && return ;;
        "gather "0) _pitplan_paths folder && return ;;
        "scenario "0) _pitplan_paths folder && return ;;
        "scenario "1) return ;;
        "report "0) _pitplan_paths folder && return ;;
        "view "0) _pitplan_paths folder && return ;;
        "export "0) _pitplan_paths folder && return ;;
        "audit "0) _pitplan_paths folder && return ;;
        "verify "0) _pitplan_paths folder && return ;;
        "convert "0) _pitplan_words "minelib" && return ;;
        "convert "*) _pitplan_paths file && return ;;
        "serve "0) _pitplan_paths folder && return ;;
        esac
        ;;
    esac
    _pitplan_words "$options"
}
complete -F _pitplan pitplan
