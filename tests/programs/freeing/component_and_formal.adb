--  What a component designates is freed, and what a formal does, whose copy goes back: both become null (RM 6.4.1,
--  13.11.2).
with Ada.Finalization; use Ada.Finalization;
with Ada.Text_IO;      use Ada.Text_IO;
with Ada.Unchecked_Deallocation;

procedure Component_And_Formal is
   type T is new Controlled with record
      N : Integer := 0;
   end record;

   overriding procedure Finalize (X : in out T);

   procedure Finalize (X : in out T) is
   begin
      Put_Line ("F" & Integer'Image (X.N));
   end Finalize;
begin
   declare
      type Ref is access T;

      procedure Free is new Ada.Unchecked_Deallocation (T, Ref);

      type Box is record
         Kept : Ref;
      end record;

      X : Box;

      procedure Drop (P : in out Ref) is
      begin
         P.N := P.N + 1;
         Free (P);
      end Drop;
   begin
      X.Kept := new T;
      Free (X.Kept);
      Put_Line (Boolean'Image (X.Kept = null));
      declare
         R : Ref := new T;
      begin
         Drop (R);
         Put_Line (Boolean'Image (R = null));
      end;
   end;
end Component_And_Formal;
