"""The limits of the program's settings, for the texts of refusals and for the size of pushes."""
import dataclasses
import tomllib
from dataclasses import dataclass


@dataclass(frozen=True)
class Limits:
    """The limits of a tenant, with the program's defaults."""

    max_label_names: int = 15
    max_label_name_length: int = 1024
    max_label_value_length: int = 2048
    max_line_size: int = 262144
    max_streams_per_tenant: int = 1000
    max_entries_per_push: int = 10000


class AllLimits:
    """The limits of each tenant."""

    def __init__(self, settings: dict):
        self.names = {field.name for field in dataclasses.fields(Limits)}
        self.common = Limits(**self._chosen(settings))
        tables = settings.get("tenants", {})
        self.own = {tenant: dataclasses.replace(self.common, **self._chosen(table)) for tenant, table in tables.items()}

    def _chosen(self, table: dict) -> dict:
        return {name: value for name, value in table.items() if name in self.names}

    def of(self, tenant: str) -> Limits:
        """The limits of `tenant`."""
        return self.own.get(tenant, self.common)


def read_limits(path: str) -> AllLimits:
    """The limits in a settings file. Raises OSError, and ValueError where it is no TOML; the program judges the rest."""
    with open(path, "rb") as file:
        return AllLimits(tomllib.load(file))
