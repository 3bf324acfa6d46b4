--  Blocks in one another are masters of their own: each finalizes what it declares when it is left, the innermost first.
--  The objects of the main procedure are finalized last of all, when its statements are at their end.
with Ada.Finalization;
with Ada.Text_IO;

procedure Nested_Blocks is
   type Outer is new Ada.Finalization.Controlled with null record;

   overriding procedure Finalize (X : in out Outer) is
   begin
      Ada.Text_IO.Put_Line ("an outer object goes");
   end Finalize;

   Whole : Outer;
begin
   Ada.Text_IO.Put_Line ("main begins");
   declare
      type Inner is new Ada.Finalization.Controlled with null record;

      overriding procedure Finalize (X : in out Inner) is
      begin
         Ada.Text_IO.Put_Line ("an inner object goes");
      end Finalize;

      First : Outer;
   begin
      declare
         Second, Third : Inner;
      begin
         Ada.Text_IO.Put_Line ("innermost block");
      end;
      Ada.Text_IO.Put_Line ("block between");
   end;
   Ada.Text_IO.Put_Line ("main ends");
end Nested_Blocks;
