this   	     	
-writes-	
(an_A)  é#;


