package main

import (
	"bytes"
	"fmt"
	"log"
	"net"
	"net/http"
	"time"

	"agent/member"
)

// serveHTTP serves what operators look at.
func (a *agent) serveHTTP() error {
	listener, err := net.Listen("tcp", a.config.HTTP)
	if err != nil {
		return err
	}
	server := &http.Server{Handler: a.handler(), ReadTimeout: 5 * time.Second, WriteTimeout: 30 * time.Second}
	go func() { log.Printf("error: http: %v", server.Serve(listener)) }()
	return nil
}

func (a *agent) handler() http.Handler {
	mux := http.NewServeMux()
	mux.HandleFunc("/metrics", a.with(func(m *member.Member, w http.ResponseWriter) error {
		w.Header().Set("Content-Type", "text/plain; version=0.0.4")
		m.Metrics(w)
		return nil
	}))
	mux.HandleFunc("/healthz", a.with(func(m *member.Member, w http.ResponseWriter) error {
		if err := m.Health(); err != nil {
			return err
		}
		cuts := m.Cuts()
		if cuts != "" {
			cuts = "; " + cuts
		}
		fmt.Fprintf(w, "ok %s%s\n", m.Silo(), cuts)
		return nil
	}))
	mux.HandleFunc("/ring.svg", a.with(func(m *member.Member, w http.ResponseWriter) error {
		var picture bytes.Buffer
		if err := m.Ring(&picture); err != nil {
			return err
		}
		w.Header().Set("Content-Type", "image/svg+xml")
		_, err := picture.WriteTo(w)
		return err
	}))
	return mux
}

// with answers 503 where there is no silo just now, or something is wrong with it.
func (a *agent) with(serve func(*member.Member, http.ResponseWriter) error) http.HandlerFunc {
	return func(w http.ResponseWriter, _ *http.Request) {
		m := a.now()
		if m == nil {
			http.Error(w, "no silo has joined here just now", http.StatusServiceUnavailable)
		} else if err := serve(m, w); err != nil {
			http.Error(w, err.Error(), http.StatusServiceUnavailable)
		}
	}
}
