package main

import (
	"context"
	"log"
	"net"
	"time"

	"agent/clock"
	"agent/directory"
	"agent/membership"
	"agent/operation"
)

// reach is how long it may take to reach another silo's endpoint.
const reach = 2 * time.Second

// awaitReach waits for those from whom the last generation was cut, so that it gave itself up: until their endpoints are reached over TCP, or they are no
// members any more. A silo that joined meanwhile would have ranges that never settle. Over NATS nothing tells that, so it waits for a while.
func (a *agent) awaitReach(ctx context.Context, sequence *membership.Sequence, severed []directory.Silo) {
	if len(severed) > 0 && a.config.Settings.Transport != "tcp" {
		pause(ctx, a.config.DeafAfter)
		return
	}
	for complaint := (operation.Complaint{}); ctx.Err() == nil; pause(ctx, retry) {
		from := unreached(severed, sequence, func(endpoint string) bool {
			conn, err := net.DialTimeout("tcp", endpoint, reach)
			if err == nil {
				conn.Close()
			}
			return err == nil
		})
		if from == "" {
			return
		}
		if complaint.IsDue(clock.Boot()) {
			log.Printf("warning: waits until it reaches %s before it joins again", from)
			operation.Notify("STATUS=waits until it reaches " + string(from))
		}
	}
}

// unreached is one of some silos that is a member, and isn't reached; "" where there is none.
func unreached(silos []directory.Silo, sequence interface {
	Status(directory.Silo) directory.Status
}, isReached func(endpoint string) bool) directory.Silo {
	for _, silo := range silos {
		status := sequence.Status(silo)
		if (status == directory.IsActive || status == directory.IsLeaving) && !isReached(silo.Endpoint()) {
			return silo
		}
	}
	return ""
}
