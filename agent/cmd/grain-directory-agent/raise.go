package main

import (
	"context"
	"errors"
	"log"

	"agent/directory"
	"agent/membership"
	"agent/silo"
)

// isMistake says whether a fault is one that doesn't mend itself: another setting, another version.
func isMistake(err error) bool {
	var difference directory.Difference
	var other directory.OtherVersion
	var program silo.OtherProgram
	return errors.As(err, &difference) || errors.As(err, &other) || errors.As(err, &program)
}

// raise gives the directory the highest version that this agent speaks, as its operator says that all agents speak it.
func (a *agent) raise(ctx context.Context) int {
	store, err := a.openStore(ctx)
	if err != nil {
		log.Printf("error: the store: %v", err)
		return cannot
	}
	defer store.Close()
	from, isThere := 0, true
	err = a.ask(ctx, func(calling context.Context) (err error) {
		from, err = membership.Raise(calling, store, directory.Newest)
		if isThere = !errors.Is(err, membership.ErrNoDirectory); !isThere {
			return nil
		}
		return err
	})
	switch {
	case !isThere:
		log.Printf("error: %q at %s: %v", a.config.Cluster, a.config.StoreName(), membership.ErrNoDirectory)
		return cannot
	case err != nil:
		log.Printf("error: the directory %q isn't raised: %v", a.config.Cluster, err)
		return cannot
	case from > directory.Newest:
		log.Printf("error: %v", directory.OtherVersion{Theirs: from})
		return mistaken
	}
	log.Printf("the directory %q has version %d, and had %d; its agents go by that once they are started again", a.config.Cluster, directory.Newest, from)
	return left
}
