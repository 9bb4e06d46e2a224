//go:build go1.21

package service

import "log/slog"

var _ Logger = (*slog.Logger)(nil)
