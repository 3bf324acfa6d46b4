--  The Initialize of a component raises an exception: the components that are complete are finalized, those that the
--  chosen order brings before it, and neither the failed one nor the record (RM 7.6.1).
with Ada.Finalization; use Ada.Finalization;
with Ada.Text_IO;      use Ada.Text_IO;

procedure Failed_Component is
   type T is new Controlled with record
      N : Integer := 0;
   end record;

   overriding procedure Adjust (X : in out T);
   overriding procedure Finalize (X : in out T);

   procedure Adjust (X : in out T) is
   begin
      Put_Line ("A" & Integer'Image (X.N));
   end Adjust;

   procedure Finalize (X : in out T) is
   begin
      Put_Line ("F" & Integer'Image (X.N));
   end Finalize;
begin
   declare
      type Bad is new T with null record;

      overriding procedure Initialize (X : in out Bad);

      procedure Initialize (X : in out Bad) is
      begin
         Put_Line ("bad");
         raise Constraint_Error;
      end Initialize;
   begin
      declare
         type R is new Limited_Controlled with record
            A, B : T;
            C    : Bad;
         end record;

         overriding procedure Finalize (X : in out R);

         procedure Finalize (X : in out R) is
         begin
            Put_Line ("whole");
         end Finalize;

         V : R;
      begin
         null;
      end;
   exception
      when Constraint_Error =>
         Put_Line ("CE");
   end;
end Failed_Component;
