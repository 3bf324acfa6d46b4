--  A return statement with a value leaves a loop and a block, whose object is finalized (RM 6.5, 7.6.1).
with Ada.Finalization; use Ada.Finalization;
with Ada.Text_IO;      use Ada.Text_IO;

procedure Nested_Return is
   type T is new Limited_Controlled with null record;

   overriding procedure Finalize (X : in out T);

   procedure Finalize (X : in out T) is
   begin
      null;
   end Finalize;

   function F return Integer is
   begin
      for I in 1 .. 3 loop
         declare
            V : T;
         begin
            if I = 2 then
               return I;
            end if;
         end;
      end loop;
      return 0;
   end F;
begin
   Put_Line (Integer'Image (F));
end Nested_Return;
