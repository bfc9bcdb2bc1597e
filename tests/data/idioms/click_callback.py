"""Click: a callback that checks an option."""
# pattern: '^(\\d+)d(\\d+)$'
import re
import click
ROLLS = r"^(\d+)d(\d+)$"
def validate_rolls(ctx, param, value):
    if re.fullmatch(ROLLS, value) is None:
        raise click.BadParameter("format must be 'NdM'")
    return value
@click.command()
@click.option("--rolls", type=click.UNPROCESSED, callback=validate_rolls, default="1d6")
def roll(rolls):
    click.echo(rolls)
