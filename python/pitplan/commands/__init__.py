"""The subcommands of `pitplan` as functions, one module each: they compute by the other packages, and write folders."""
