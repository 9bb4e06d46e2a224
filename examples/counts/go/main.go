// A task of the service that counts, as ../counts.py is one.
//
//	counts TASK HOST:PORT
package main

import (
	"context"
	"errors"
	"fmt"
	"log"
	"net/http"
	"os"
	"os/signal"
	"strconv"
	"strings"
	"sync"
	"syscall"

	"hourstable"
	"hourstable/service"
)

var turn sync.Mutex // one write at a time in this process

// add adds one to the count of a key in the store, in one step.
func add(task *service.Task, key string) (count int, err error) {
	turn.Lock()
	defer turn.Unlock()
	err = task.Serving(context.Background(), key, func(_ context.Context, lease *service.Lease) error {
		token, err := lease.Token()
		if err != nil {
			return err
		}
		file, err := os.OpenFile("store/"+key, os.O_RDWR|os.O_CREATE, 0o666)
		if err != nil {
			return err
		}
		defer file.Close()
		if err := syscall.Flock(int(file.Fd()), syscall.LOCK_EX); err != nil {
			return err
		}
		fence := hourstable.Token{}.String()
		fmt.Fscanf(file, "%s %d", &fence, &count) // nothing of a new file
		if fence > token.String() {
			return errors.New("another owner came since")
		}
		count++
		if err := lease.Check(); err != nil { // just before a write
			return err
		}
		_, err = file.WriteAt([]byte(fmt.Sprintf("%s %020d", token, count)), 0)
		return err
	})
	return count, err
}

func main() {
	number, err := strconv.ParseUint(os.Args[1], 10, 64)
	if err != nil {
		log.Fatal(err)
	}
	task, err := service.NewTask(service.TaskConfig{
		Control: []string{"http://127.0.0.1:8070"}, Job: "shop", Task: number, Logs: "logs",
	})
	if err != nil {
		log.Fatal(err)
	}
	http.HandleFunc("/counts/", func(answer http.ResponseWriter, request *http.Request) {
		count, err := add(task, strings.TrimPrefix(request.URL.Path, "/counts/"))
		switch {
		case err == nil:
			fmt.Fprintln(answer, count)
		case errors.Is(err, service.ErrDenied):
			http.Error(answer, err.Error(), http.StatusMisdirectedRequest)
		default:
			http.Error(answer, err.Error(), http.StatusServiceUnavailable)
		}
	})
	http.HandleFunc("/readyz", func(answer http.ResponseWriter, _ *http.Request) {
		if !task.Ready() {
			answer.WriteHeader(http.StatusServiceUnavailable)
		}
	})
	go func() { log.Fatal(http.ListenAndServe(os.Args[2], nil)) }()
	ctx, stop := signal.NotifyContext(context.Background(), syscall.SIGTERM)
	defer stop()
	if err := task.Run(ctx); err != nil {
		log.Fatal(err)
	}
}
