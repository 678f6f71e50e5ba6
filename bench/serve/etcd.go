// etcd ADDRESS[,ADDRESS..] CONNECTIONS LENGTH GETS
//
// Puts on etcd the load that load.rs puts on a server of memcached's protocol, by etcd's own client for Go (clientv3,
// which speaks gRPC): so many clients with a connection each, to the nodes in turn, as etcd's own benchmark has them
// where it is given as many connections as clients. Each has one request under way: it sets a key of its own to 32
// bytes, gets it so many times, and goes on with its next key. Gets are linearizable, as they are by default. LENGTH
// and what is printed are as load.rs has them. Built by bench/serve/run.
package main

import (
	"context"
	"fmt"
	"log"
	"os"
	"sort"
	"strconv"
	"strings"
	"sync"
	"time"

	"go.etcd.io/etcd/clientv3"
)

// How many keys a client has.
const keys = 64

// When a client has done its part: after so many commands, or after some time.
type length struct {
	commands uint64
	time     time.Duration
}

func readLength(word string, clients uint64) length {
	if strings.HasSuffix(word, "s") {
		return length{time: time.Duration(number(strings.TrimSuffix(word, "s"))) * time.Second}
	}
	return length{commands: number(word) / clients}
}

func (l length) isReached(count uint64, start time.Time) bool {
	if l.time > 0 {
		return time.Since(start) >= l.time
	}
	return count >= l.commands
}

func number(word string) uint64 {
	n, err := strconv.ParseUint(word, 10, 64)
	if err != nil {
		log.Fatal(err)
	}
	return n
}

// What a client saw.
type seen struct {
	times []time.Duration
	wrong int
}

func connect(address string) *clientv3.Client {
	client, err := clientv3.New(clientv3.Config{Endpoints: []string{address}, DialTimeout: 10 * time.Second})
	if err != nil {
		log.Fatal(err)
	}
	// the connection stands when something was answered over it
	if _, err := client.Get(context.Background(), "connected"); err != nil {
		log.Fatal(err)
	}
	return client
}

// Asks, and says whether the answer is the wanted one: one value, the one that was set.
func ask(client *clientv3.Client, isSet bool, key, value string) bool {
	if isSet {
		_, err := client.Put(context.Background(), key, value)
		return err == nil
	}
	answer, err := client.Get(context.Background(), key)
	return err == nil && len(answer.Kvs) == 1 && string(answer.Kvs[0].Value) == value
}

// One client's part.
func load(client *clientv3.Client, me uint64, l length, gets uint64) seen {
	var s seen
	start := time.Now()
	for count := uint64(0); !l.isReached(count, start); count++ {
		turn := count / (gets + 1)
		isSet := count%(gets+1) == 0
		key, value := fmt.Sprintf("c%dk%d", me, turn%keys), fmt.Sprintf("%012d%020d", me, turn)
		begun := time.Now()
		if !ask(client, isSet, key, value) {
			s.wrong++
		}
		s.times = append(s.times, time.Since(begun))
	}
	return s
}

// Runs all clients at once, and gives what they saw, and how long it took.
func loadAll(clients []*clientv3.Client, l length, gets uint64) ([]seen, time.Duration) {
	told := make([]seen, len(clients))
	var ended sync.WaitGroup
	start := time.Now()
	for me := range clients {
		ended.Add(1)
		go func(me int) {
			defer ended.Done()
			told[me] = load(clients[me], uint64(me), l, gets)
		}(me)
	}
	ended.Wait()
	return told, time.Since(start)
}

func main() {
	places := strings.Split(os.Args[1], ",")
	clients := make([]*clientv3.Client, number(os.Args[2]))
	for me := range clients {
		clients[me] = connect(places[me%len(places)])
	}
	told, took := loadAll(clients, readLength(os.Args[3], uint64(len(clients))), number(os.Args[4]))
	var times []time.Duration
	wrong := 0
	for _, s := range told {
		times = append(times, s.times...)
		wrong += s.wrong
	}
	sort.Slice(times, func(a, b int) bool { return times[a] < times[b] })
	at := func(percent int) int64 { return times[(len(times)-1)*percent/100].Microseconds() }
	rate := float64(len(times)) / took.Seconds()
	fmt.Printf("%.0f %d %d %d %d\n", rate, at(50), at(99), len(times), wrong)
}
