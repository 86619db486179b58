// Says of Starlark files whether starlark-go accepts them: its parser, and those checks of
// its resolver that do not depend on which names there are.
//
// Reads paths from standard input, a line each; writes a line for each: "ok", or why not.
package main

import (
	"bufio"
	"fmt"
	"os"
	"strings"

	"go.starlark.net/resolve"
	"go.starlark.net/syntax"
)

// everyName says that a name is there.
func everyName(string) bool { return true }

func accepts(path string) error {
	file, err := syntax.Parse(path, nil, 0)
	if err != nil {
		return err
	}
	return resolve.File(file, everyName, everyName)
}

func main() {
	resolve.AllowNestedDef = true
	resolve.AllowLambda = true
	resolve.AllowFloat = true
	resolve.AllowSet = true
	resolve.AllowGlobalReassign = true
	paths := bufio.NewScanner(os.Stdin)
	for paths.Scan() {
		verdict := "ok"
		if err := accepts(paths.Text()); err != nil {
			verdict = strings.ReplaceAll(err.Error(), "\n", " ")
		}
		fmt.Println(verdict)
	}
}
