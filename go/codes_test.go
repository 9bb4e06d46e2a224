package hourstable_test

import (
	"go/ast"
	"go/parser"
	"go/token"
	"os"
	"regexp"
	"strings"
	"testing"

	. "hourstable"
)

// The codes of Go are those of the header, if this is the repository, which has it.
func TestCodes(t *testing.T) {
	header, err := os.ReadFile("../include/hourstable.h")
	if err != nil {
		t.Skip("no header beside the module: ", err)
	}
	codes, _, _ := strings.Cut(string(header), "enum hs_kind")
	inHeader := map[string]bool{}
	for _, found := range regexp.MustCompile(`HS_(\w+) = -?\d+`).FindAllStringSubmatch(codes, -1) {
		inHeader[found[1]] = true
	}
	delete(inHeader, "DONE")
	file, err := parser.ParseFile(token.NewFileSet(), "errors.go", nil, 0)
	succeeds(t, "errors.go", err)
	inGo := map[string]string{}
	ast.Inspect(file, func(node ast.Node) bool {
		if value, ok := node.(*ast.ValueSpec); ok && strings.HasPrefix(value.Names[0].Name, "Err") {
			code := value.Values[0].(*ast.CallExpr).Args[0].(*ast.SelectorExpr).Sel.Name
			inGo[strings.TrimPrefix(code, "HS_")] = value.Names[0].Name
		}
		return true
	})
	is(t, "how many codes", len(inGo), len(inHeader))
	for code := range inHeader {
		is(t, "the name of "+code, strings.ToLower(inGo[code]), "err"+strings.ToLower(strings.ReplaceAll(code, "_", "")))
	}
}

func TestTexts(t *testing.T) {
	for refused, reply := range map[*Refused]string{
		{Code: ErrNotOwned, Generation: 3}:                    "not-owned 3",
		{Code: ErrOld, Number: 7}:                             "old 7",
		{Code: ErrOldGeneration, Generation: 4}:               "old 4",
		{Code: ErrJobHeld, Until: 1001}:                       "job-held 1001",
		{Code: ErrHeld, Task: 2, Kind: Bridge, Number: 9}:     "held 2 bridge 9",
		{Code: ErrTooManyOwnersForJob}:                        "too-many-owners-for-job",
		{Code: Code(1000)}:                                    "code 1000",
		{Code: ErrVersion, Number: 3, Generation: 4, Task: 5}: "version 3",
	} {
		is(t, "the reply", refused.Reply(), reply)
	}
	is(t, "the name of a code", ErrHeld.Name(), "HS_HELD")
	is(t, "the name of no code", Code(1000).Name(), "unknown")
	is(t, "the header and the library", LibraryVersion().String(), HeaderVersion)
}
