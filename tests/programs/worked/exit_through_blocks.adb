--  An exit statement leaves two blocks. A Finalize in the inner one raises an exception: the other object there is
--  finalized all the same, and Program_Error takes the place of the exit (RM 5.7, 7.6.1).
with Ada.Finalization; use Ada.Finalization;
with Ada.Text_IO;      use Ada.Text_IO;

procedure Exit_Through_Blocks is
   type T is new Controlled with record
      N : Integer := 0;
   end record;

   overriding procedure Adjust (X : in out T);
   overriding procedure Finalize (X : in out T);

   procedure Adjust (X : in out T) is
   begin
      Put_Line ("A" & Integer'Image (X.N));
   end Adjust;

   procedure Finalize (X : in out T) is
   begin
      Put_Line ("F" & Integer'Image (X.N));
   end Finalize;
begin
   loop
      declare
         type R is new T with null record;

         overriding procedure Finalize (X : in out R);

         procedure Finalize (X : in out R) is
         begin
            Put_Line ("R");
            raise Constraint_Error;
         end Finalize;

         A : T;
      begin
         A.N := 1;
         declare
            B : T;
            C : R;
         begin
            B.N := 2;
            exit;
         end;
      exception
         when Program_Error =>
            Put_Line ("PE");
      end;
      exit;
   end loop;
   Put_Line ("after");
end Exit_Through_Blocks;
